#!/usr/bin/env python3
"""No remainder and no division in a pass over the columns of a row: the place of a kept row is found before it.

passes.py          the lowered form of the engines' crates, which `rt ci` and `rt lib` leave, after the fixtures, each of which must be refused
passes.py FILE..   only these files of lowered form

A loop of these crates counts as one over columns unless it is named below, and so does a closure: what takes it is one of the iterators
of std, whose loop calls it at each turn. Neither in it nor in anything that it calls, however far down, may a remainder or a division
stand.
"""
import glob
import json
import os
import subprocess
import sys

CRATES = ["arith", "ring", "rule", "passes", "arrival", "engine", "machine", "scan", "levels", "histograms", "rank"]
# loops over rectangles: each finds the rows that its edges reach, then runs passes
OVER_RECTANGLES = {"engine::rows::values", "engine::rows::roll_back_first"}
# what stands in the name of a closure, before that of the function that it is written in
CLOSURE = "::fn::"
ROOT = os.path.dirname(os.path.dirname(os.path.abspath(__file__)))
# A body is a list in Polish order: how many parts follow each word, but for Switch, which has one for each arm and one for the rest.
PARTS = {"Seq": 2, "If": 2, "Block": 1, "Loop": 1}
PARTS.update(dict.fromkeys(["Skip", "Return", "Assign", "Call", "CallV", "Exit", "Unreachable", "LendStatic", "Foreign"], 0))


def head(word):
    return word if isinstance(word, str) else next(iter(word))


def parts(word):
    if head(word) == "Switch":
        _, arms, rest = word["Switch"]
        return len(arms) + rest
    if head(word) not in PARTS:
        sys.exit(f"passes: a word of the lowered form that is not known: {head(word)}")
    return PARTS[head(word)]


def end(body, start):
    """Where the part of a body ends that begins at a place."""
    open_parts = 1
    while open_parts:
        open_parts += parts(body[start]) - 1
        start += 1
    return start


def loops(body):
    """The parts of a body that are loops."""
    if end(body, 0) != len(body):
        sys.exit("passes: a body does not end where it should")
    return [body[i:end(body, i)] for i, word in enumerate(body) if head(word) == "Loop"]


def under(part, name):
    """What stands under a name anywhere in a part."""
    todo = [part]
    while todo:
        x = todo.pop()
        if isinstance(x, dict):
            todo.extend(x.values())
            if name in x:
                yield x[name]
        elif isinstance(x, list):
            todo.extend(x)


def divides(part):
    return any(isinstance(op[0], dict) and ({"Rem", "Div"} & set(op[0])) for op in under(part, "Op2"))


def calls(part):
    return {ref[0] for ref in under(part, "Fn")}


def turns(name, body):
    """The parts of a function that are done at each turn of a loop: its loops, or the whole of a closure."""
    found = [("loop", loop) for loop in loops(body)]
    return found + [("closure", body)] if CLOSURE in name else found


def faults(functions, own, looping):
    """The loops and closures of these functions that divide, and how they come to it; the functions that have or are one are noted."""
    for name in own:
        for kind, part in turns(name, functions[name]):
            looping.add(name)
            if name in OVER_RECTANGLES:
                continue
            if divides(part):
                yield f"{name}: a remainder or a division in a {kind}"
            seen, todo = set(), calls(part)
            while todo:
                callee = todo.pop()
                if callee in seen or callee not in functions:
                    continue
                seen.add(callee)
                if divides(functions[callee]):
                    yield f"{name}: a {kind} calls {callee}, which takes a remainder or divides"
                todo |= calls(functions[callee])


def bodies(file):
    """The functions of a file, each with its body."""
    with open(file) as f:
        return {name: function["body"] for name, function in json.load(f)}


def lowered(crate):
    """The file of a crate's lowered form; the newer where there are two."""
    found = glob.glob(os.path.join(ROOT, "crates", crate, "out", "rlib", "*.rlib", "toolchain", "mir.json"))
    if not found:
        sys.exit(f"passes: crates/{crate} is not built: `rt ci` or `rt lib` leaves its lowered form")
    return max(found, key=os.path.getmtime)


def kit():
    """The folder of the kit. Of its libraries these crates name none, so a loop calls only those of std."""
    return os.path.dirname(subprocess.run(["rt", "doc"], capture_output=True, text=True, check=True).stdout.strip())


def main(files):
    looping = set()
    if files:
        found = [f"{f}: {fault}" for f in files for fault in faults(bodies(f), list(bodies(f)), looping)]
    else:
        for fixture in sorted(glob.glob(os.path.join(ROOT, "tests", "passes", "*.json"))):
            if not list(faults(bodies(fixture), list(bodies(fixture)), looping)):
                sys.exit(f"passes: {os.path.relpath(fixture, ROOT)} divides in a loop, and was not refused")
        looping.clear()
        functions, own = {}, []
        for library in ("core", "std*"):
            for file in glob.glob(os.path.join(kit(), "rlibs", f"{library}.rlib", "toolchain", "mir.json")):
                functions.update(bodies(file))
        for crate in CRATES:
            got = bodies(lowered(crate))
            functions.update(got)
            own += got
        found = list(faults(functions, own, looping))
        found += [f"{name} has no loop, and is named as one over rectangles" for name in sorted(OVER_RECTANGLES - looping)]
    for fault in found:
        print("passes:", fault)
    if found:
        sys.exit(1)
    if not files:
        print(f"passes: {len(looping - OVER_RECTANGLES)} functions with loops over columns or closures, none divides")


main(sys.argv[1:])
