"""What a reader would stumble over: a definition or law that nothing names; a name, a file or an edit in docs/PROMISES.md that does not
exist; an edit that no row of it cites; a comment in a proof that names a line of the source; a contract's line over 160 characters. It
reads text only; each line is a place to look."""
import collections
import pathlib
import re

top = pathlib.Path(".")
antt = sorted(p for part in ("specs", "proofs") for p in top.glob(f"crates/*/{part}/**/*.antt"))
rt = sorted(top.glob("crates/*/src/*.rt"))
text = {p: p.read_text() for p in antt + rt}
code = {p: re.sub(r"--.*" if p.suffix == ".antt" else r"//.*", "", t) for p, t in text.items()}
used = {p: re.sub(r"(?m)^\s*(?:ghost |pub )?use .*$", "", re.sub(r"(?ms)^\s*(?:ghost |pub )?use [^\n{;]*\{[^}]*\};?", "", t)) for p, t in code.items()}
total = collections.Counter(w for t in used.values() for w in re.findall(r"[^\s(){};,.\[\]⌜⌝`]+", t))
promises = (top / "docs/PROMISES.md").read_text()
places = []

# a name that stands only in its own signature, clauses and `unfolding` lines
for p in antt:
    if re.search(r"-- src/\w+\.rt:\d+", text[p]):
        places.append(f"{p}: a comment names a line of the source")
    if p.name in ("Answers.antt", "Invariants.antt"):
        continue
    for m in re.finditer(r"(?m)^\s*(?:(?:unfoldable|abbrev|pub) )*([a-zA-Z][^\s:(){}]*)(?: \{[^}]*\})? :\s", used[p]):
        name = re.escape(m[1])
        own = len(re.findall(rf"(?m)^\s*(?:(?:unfoldable|abbrev|pub) )*{name}(?=[\s:])(?=.*(?<!\S)[:=](?:\s|$))", used[p]))
        opened = sum(len(re.findall(rf"(?m)^\s*unfolding\b.*\b{name}(?![\w-])", t)) for t in used.values()) if total[m[1]] - own < 12 else 0
        if total[m[1]] <= own + opened and (f"`{m[1]}`" not in promises or p.parts[2] == "specs"):
            places.append(f"{p}: {m[1]}: nothing names it")
for p in rt:
    if any(len(l) > 160 for l in text[p].splitlines() if re.match(r"\s*(requires|ensures)", l)):
        places.append(f"{p}: a line of a contract is over 160 characters")

edits = {f"{e.parts[1]}/{e.stem}" for e in top.glob("crates/*/must-fail/*.edit")}
crates = {p.name for p in top.glob("crates/*")}
names = set(total) | {m for t in code.values() for m in re.findall(r"\b(?:fn|struct|enum|const|record|data) (\w+)", t)} | crates
cited = set()
for i, line in enumerate(promises.splitlines(), 1):
    places += [f"docs/PROMISES.md:{i}: `{n}` is defined nowhere" for n in re.findall(r"`([A-Za-z][\w\-·ℤ²]*)`", line) if n not in names and not n.startswith("strip_")]
    places += [f"docs/PROMISES.md:{i}: {f} is not there" for f in re.findall(r"\b([a-z_0-9]+/(?:src|specs|proofs)/[\w/]+\.(?:antt|rt))", line) if not (top / "crates" / f).exists()]
    here = {f"{c}/{e}" for c, e in re.findall(r"\b([a-z_0-9]+)/([a-z0-9_]+)\b(?![/.])", line) if c in crates and e not in ("src", "specs", "proofs", "stdin", "stdout")}
    places += [f"docs/PROMISES.md:{i}: no edit {e}" for e in sorted(here - edits)]
    cited |= here
places += [f"docs/PROMISES.md: no row cites the edit {e}" for e in sorted(edits - cited)]
print("\n".join(places) or "nothing")
