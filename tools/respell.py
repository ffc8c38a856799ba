#!/usr/bin/env python3
"""Brings the repository's own names of specs/ and proofs/ to the kit's spelling: once, at the top of the repository, after port.py.

usage: respell.py [--check] [--plain] [--table FILE]

--check writes nothing. --table FILE also writes the names that have one spelling everywhere, a row old, tab, new for each (edits_text.py and
scripts of your own read it; a second run leaves it). --plain turns every dash of a name into '_'. Without it a dash stays where it joins two names that both stand in
the lemma's own statement (CONTRACT_STYLE.md, "Names", rule 2: `all-suc` of `all (suc n) f`), and becomes '_' before a plain word.
What turns: each name that a file of crates/*/specs or crates/*/proofs declares (definitions, lemmas, constructors, record fields, and the
names of `where` blocks and modules), but in proofs/F/*.antt only the name of the proof, f_spec, and names in camel case. Names of src/, std and
Rattle stay. An item `one as Levels·one` becomes `one`: a word may have the name of a function of src/. It also mends products in comments.
A second run finds nothing to turn. Prints, per module, old -> new, and what fell together and how it was kept apart.
"""
import collections
import pathlib
import re
import sys

CHECK = "--check" in sys.argv
PLAIN = "--plain" in sys.argv
TOP = pathlib.Path.cwd()
N = r'[^\s(){}.;,@"«»]+'
WORD = re.compile(N)
SIG = re.compile(rf"^( *)((?:(?:unfoldable|abbrev|pub|private|pattern) )*)({N})((?: \{{[^}}]*\}})*) :(?=\s|$)")
HEAD = re.compile(rf"^( *)(pub )?(record|data) ({N})(.*)$")
USE = re.compile(rf"^( *)(?:pub )?use ([^\s{{;]+?)(?:\.\{{([^}}]*)\}})?( as {N})? *$", re.M)
GHOST = re.compile(r"ghost use ([^\s{;]+?)(?:\.\{([^}]*)\})?;", re.S)
QUIET = re.compile(r'"(?:[^"\\\n]|\\.)*"|(?<![^\s(){}.;,@"«»])--[^\n]*|\{-.*?-\}', re.S)
RQUIET = re.compile(r'//[^\n]*|b?"(?:[^"\\]|\\.)*"', re.S)
RESERVED = set(
    "data record deriving module where use mod pub package open as unfoldable abbrev axiom unfold unfolding ruleset mutual infix infixl infixr "
    "elim let in do Type coe fcoe tcoe hcom com rw simp search grw cc omega grind hlevel assumption first_of cap V vin vproj in_s out_s yes no "
    "ground tt absurd Unit syntax requires ensures ghost result".split()
)
# words of an operator, as std's lemma names have them
OPERATORS = {
    "◌+◌": "add", "◌-◌": "sub", "◌*◌": "mul", "◌/◌": "div", "◌%◌": "mod", "◌^◌": "pow", "◌≤◌": "le", "◌<◌": "lt", "◌≡◌": "eq", "◌++◌": "append",
    "◌&&◌": "and", "◌||◌": "or", "+": "add", "-": "sub", "*": "mul", "/": "div", "%": "mod", "^": "pow", "≤": "le", "<": "lt", "≡": "eq", "++": "append",
    "&&": "and", "||": "or", "+ℤ": "add", "-ℤ": "sub", "[]": "nil", "∷": "cons",
}
# words of std that have another name now, where a name of the repository has the old one as a part
STD = {"getD": "get_or", "leZ": "le_z", "ltZ": "lt_z", "negZ": "neg_z", "bitOr": "bit_or", "bitAnd": "bit_and", "natAbs": "nat_abs"}
# names that would fall together with another one: kept apart by hand, module.old -> new
APART = {
    "Rattle.arith.specs.Diff.diff": "SignedDiff",  # beside the record Diff
    "Rattle.arrival.proofs.Columns.edge-line": "edge_line_lem",  # the lemma of the function edgeLine
    "Rattle.figures.proofs.Bounds.loss-most": "loss_most_lem",  # the lemma of the number lossMost
    "Rattle.rankrun.proofs.Tallies.up-to": "up_to_lem",  # the lemma of levels' up_to, which that file imports
    "pixel-off": "pixel_off_bounded",  # the headline theorem of the number pixelOff
    "bound-most": "bound_at_most",  # fields, beside the numbers boundMost and valueMost
    "value-most": "value_at_most",
    "column-less": "column_less_fits",  # fields, beside the sums columnLess ..
    "column-next": "column_next_fits",
    "window-less": "window_less_fits",
    "window-next": "window_next_fits",
    "stepBy": "step_left",  # port.py has made step_by of the lemma step-by in the same files
    "movedAt": "moved_count_at",  # port.py has made moved_at of a lemma that stands where the word is used
    "differsAt": "difference_at",  # the same, differs_at
}


def snake(word):
    """one name in snake case: eqZ eq_z, firstNot first_not, sumℤ sum_ℤ"""
    if word in STD:
        return STD[word]
    word = word.replace("′", "'")
    if not re.search("[a-z]", word) or word[0].isupper():
        return word
    word = re.sub(r"(?<=[a-z0-9])(?=[A-Z])", "_", word)
    word = re.sub(r"(?<=[a-z0-9])(?=ℤ)", "_", word)
    return "→".join(p if p[:1].isupper() else p.lower() for p in word.split("→"))


def camel(word):
    return "".join(p[:1].upper() + p[1:] for p in re.split(r"[-_]", word) if p)


class Item:
    def __init__(self, name, kind, statement, line):
        self.name, self.kind, self.statement, self.line = name, kind, statement, line


def blank(text, quiet=QUIET):
    """the text with comments and quoted text as spaces"""
    return quiet.sub(lambda m: re.sub(r"[^\n]", " ", m[0]), text)


def declared(text):
    """the items that a file of specs/ or proofs/ declares"""
    lines = blank(text).split("\n")
    items, inside = [], None
    for i, line in enumerate(lines):
        indent = len(line) - len(line.lstrip())
        if inside is not None and line.strip() and indent <= inside[0]:
            inside = None
        m = HEAD.match(line)
        if m:
            items.append(Item(m[4], "type", line, i + 1))
            inside = (len(m[1]), m[3])
            continue
        m = SIG.match(line)
        if m and m[3] not in ("let", "in") and not m[3].startswith("?"):
            statement = [line[m.end():]]
            for l in lines[i + 1:]:
                if not l.strip() or len(l) - len(l.lstrip()) <= len(m[1]):
                    break
                statement.append(l)
            s = "\n".join(statement)
            kind = "value"
            if inside is not None:
                kind = "field" if inside[1] == "record" else "constructor"
            elif re.search(r"(?:^|→)\s*Type(?:\s+(?:\d+|ℓ|\{[^}]*\}))?\s*$", s):
                kind = "type"
            items.append(Item(m[3], kind, s, i + 1))
    return items


def spelled(item, known):
    """the kit's spelling of an item's name: the same again for the name that it gives"""
    new, last = item.name, None
    while new != last:
        last, new = new, once(Item(new, item.kind, item.statement, item.line), known)
    return new


def once(item, known):
    if item.kind == "type":
        return item.name if item.name[0].isupper() else camel(snake(item.name))
    parts = item.name.split("-")
    if len(parts) == 1 or item.name.startswith("-") or item.name.endswith("-"):
        return snake(item.name)
    body = blank(item.statement)
    bound = set()
    for m in re.finditer(r"[({]([^(){}:]*?) :", body):
        bound |= set(m[1].split())
    there = {snake(w) for w in WORD.findall(body) if w not in bound}
    there |= {OPERATORS[w] for w in WORD.findall(body) if w in OPERATORS}
    names = [snake(p) for p in parts]
    out = names[0]
    for a, b in zip(names, names[1:]):
        join = not PLAIN and a in there and b in there and a in known and b in known
        out += ("-" if join else "_") + b
    return out


def module_of(path):
    p = path.relative_to(TOP / "crates")
    return "Rattle." + ".".join(p.with_suffix("").parts)


def turn(text, table, quiet, word=WORD, fields=(), inside=None):
    """the text with each word of the table turned, comments by `inside`, quoted text never; behind a dot only fields and a module's items"""
    out, at = [], 0

    def code(s, before):
        def one(m):
            w = m[0]
            prior = s[m.start() - 1] if m.start() else before[-1:]
            if prior == "." and w in fields:
                return fields[w]
            return table.get(w, w)

        return word.sub(one, s)

    for m in quiet.finditer(text):
        out.append(code(text[at:m.start()], text[:at]))
        q = m[0]
        out.append(inside(q) if inside and not q.lstrip("b").startswith('"') else q)
        at = m.end()
    out.append(code(text[at:], text[:at]))
    return "".join(out)


def apart(path, name):
    return APART.get(f"{module_of(path)}.{name}") or APART.get(name)


def items_of(list_):
    """the items of a use line, (name, name here)"""
    out = []
    for part in (list_ or "").split(","):
        part = part.strip()
        if part:
            a, _, b = part.partition(" as ")
            out.append((a.strip(), (b or a).strip()))
    return out


def main():
    files = [p for p in sorted(TOP.glob("crates/*/*/**/*.antt")) if p.relative_to(TOP).parts[2] in ("specs", "proofs")]
    antt = {p: p.read_text() for p in files}
    walks = {p for p in files if len(p.relative_to(TOP).parts) > 4 and p.name in ("Proof.antt", "Invariants.antt", "Answers.antt")}
    rt = {p: p.read_text() for p in sorted(TOP.glob("crates/*/src/**/*.rt"))}
    found = {p: declared(antt[p]) for p in files if p not in walks}
    known = {snake(i.name) for items in found.values() for i in items}
    for p, text in list(antt.items()) + list(rt.items()):
        for m in (USE if p in antt else GHOST).finditer(text):
            known |= {snake(a) for a, _ in items_of(m[3 if p in antt else 2])}
    known |= set(OPERATORS.values())
    functions = {snake(i.name) for items in found.values() for i in items if i.kind == "value" and "-" not in i.name and snake(i.name) != i.name}
    table, kinds = collections.defaultdict(dict), {}
    for p, items in found.items():
        for i in items:
            new = apart(p, i.name) or spelled(i, known)
            if i.kind == "value" and "-" in i.name and new in functions:
                new += "_lem"  # rule 3: a lemma that would have its function's name
            if i.name in table[p] and table[p][i.name] != new:
                # one name twice in a file, as a name of a `where` block: one spelling for both, the plainer
                new = min(new, table[p][i.name], key=lambda n: n.count("-"))
            table[p][i.name] = new
            kinds[p, i.name] = i.kind
    # one old name has one new name wherever it is no type, so that the files above need no second name
    spellings = collections.defaultdict(set)
    for p, t in table.items():
        for old, new in t.items():
            if kinds[p, old] != "type" and not apart(p, old):
                spellings[old].add(new)
    for p, t in table.items():
        for old, new in t.items():
            if not apart(p, old) and len(spellings[old]) > 1:
                t[old] = min(spellings[old], key=lambda n: (n.count("-"), n))
    by_module = {module_of(p): dict(t) for p, t in table.items()}
    passed = True
    while passed:  # names that a module passes on by `pub use`
        passed = False
        for p, text in antt.items():
            for m in USE.finditer(text):
                if m[0].lstrip().startswith("pub use") and m[2] in by_module:
                    for a, b in items_of(m[3]):
                        if a in by_module[m[2]] and b == a and a not in by_module.setdefault(module_of(p), {}):
                            by_module[module_of(p)][a] = by_module[m[2]][a]
                            passed = True
    said = []
    # what falls together in one module
    for p, t in sorted(table.items()):
        back = collections.defaultdict(set)
        for old, new in t.items():
            back[new.lower()].add(old)
        for low, olds in back.items():
            if len(olds) > 1 and any(t[o] != o for o in olds):
                said.append(f"together: {module_of(p)}: " + ", ".join(f"{o} -> {t[o]} ({kinds[p, o]})" for o in sorted(olds)))
        for old, new in t.items():
            if new != old and new in RESERVED:
                said.append(f"reserved: {module_of(p)}: {old} -> {new}")
    fields = {}
    for p, t in table.items():
        for old, new in t.items():
            if kinds[p, old] == "field" and old != new:
                fields[old] = new
    # the table of each file: its own names and what it imports
    tables, aliens = {}, {}
    for p, text in list(antt.items()) + list(rt.items()):
        here, alien = {}, set()
        if p in table:
            here.update({o: n for o, n in table[p].items() if o != n})
        for m in (USE if p in antt else GHOST).finditer(text):
            path, list_ = (m[2], m[3]) if p in antt else (m[1], m[2])
            for a, b in items_of(list_):
                if path in by_module:
                    if a not in by_module[path] and a[0] != "◌":
                        said.append(f"unresolved: {p.relative_to(TOP)}: {path} declares no {a}")
                    new = by_module[path].get(a, a)
                    if new != a:
                        here[a] = new
                else:
                    alien.add(a)
                    alien.add(b)
        here.update({o: n for o, n in fields.items() if o not in here})
        for m in (USE if p in antt else GHOST).finditer(text):
            for a, b in items_of(m[3] if p in antt else m[2]):
                if "·" in b:
                    here[b] = here.get(a, a)  # `one as Levels·one`: a word may have a function's name, and a name has no middle dot
                    alien.discard(b)
                elif a != b and snake(b).replace("-", "_") != b and not b.endswith("◌"):
                    here[b] = snake(b).replace("-", "_")  # a name that the file itself gives to what it imports
                    alien.discard(b)
        if p in walks:
            for i in declared(text):  # of the names that a walk declares, only those in camel case turn
                if i.kind != "type" and "-" not in i.name and snake(i.name) != i.name:
                    here[i.name] = snake(i.name)
            f = p.parent.name
            here[f.replace("_", "-") + "-spec"] = f + "_spec"
        for a in alien & set(here):
            said.append(f"alien: {p.relative_to(TOP)}: {a} is imported from elsewhere, and stays")
            del here[a]
        tables[p], aliens[p] = here, alien
    everywhere = collections.defaultdict(set)
    for t in table.values():
        for old, new in t.items():
            everywhere[old].add(new)
    # old names that have one spelling, for comments, pages and scripts
    one = {o: next(iter(n)) for o, n in everywhere.items() if len(n) == 1 and next(iter(n)) != o and not o.islower() or "-" in o and len(n) == 1 and next(iter(n)) != o}
    loud = {o: n for o, n in one.items() if re.search("[a-z][A-Zℤ]", o)}

    def comment(here):
        def inside(q):
            q = re.sub(r"`[^`\n]*`", lambda m: WORD_IN.sub(lambda w: here.get(w[0]) or one.get(w[0], w[0]), m[0]), q)
            q = WORD_IN.sub(lambda w: loud.get(w[0], w[0]), q)
            # products in comments that port.py took for names: M·N became M-as-N, and weight·M·N typeof.weight.M.N
            q = re.sub(r"(?<![\w-])([A-Z])-as-([A-Z])(?![\w-])", r"\1·\2", q)
            return re.sub(r"\btypeof\.(\w+(?:\.[A-Z])+)(?!\w)", lambda m: m[1].replace(".", "·"), q)

        return inside

    # a module of the repository that is named and not opened
    for p, text in antt.items():
        for m in USE.finditer(text):
            if m[3] is None and m[2] in by_module:
                said.append(f"look: {p.relative_to(TOP)}: the module {m[2]} is used by name{m[4] or ''}")
    # a word that is already there under the new spelling
    for p, text in list(antt.items()) + list(rt.items()):
        here = tables[p]
        quiet = QUIET if p in antt else RQUIET
        bare = blank(text, quiet)
        if p in antt:
            words = {m[0] for m in WORD.finditer(bare) if bare[m.start() - 1:m.start()] != "." and not re.match(r"\.\w", bare[m.end():m.end() + 2])}
        else:
            words = set(re.findall(r"[\wℤ'→·-]*[\wℤ']", bare))
        back = collections.defaultdict(list)
        for old, new in sorted(here.items()):
            if old in words and old != new:
                back[new].append(old)
                if new in words:
                    what = ""
                    if p in rt:
                        what = "  a function has the name too, as std's words have"
                        fns = re.search(rf"\bfn {new}\b|\buse [^;]*\b{new}\b", bare)
                        others = re.search(rf"\blet (?:mut )?{new}\b|[(,|] *(?:mut )?{new}\s*[:,|]|\bfor {new}\b|\b{new}: |\.{new}\b(?!\()", bare)
                        if others or not fns:
                            what = "  A LOCAL, PARAMETER OR FIELD MAY HAVE THE NAME"
                    said.append(f"there already: {p.relative_to(TOP)}: {old} -> {new}{what}")
        for new, olds in back.items():
            if len(olds) > 1:
                said.append(f"two of one: {p.relative_to(TOP)}: {', '.join(olds)} -> {new}")
    total, changed = 0, []
    for p, text in antt.items():
        new = turn(text, tables[p], QUIET, fields=fields, inside=comment(tables[p]))
        new = AS_SAME.sub(lambda m: m[1], new)
        if new != text:
            changed.append((p, new))
    for p, text in rt.items():
        new = turn(text, tables[p], RQUIET, word=re.compile(r"[A-Za-z_0-9ℤ'→·-]*[A-Za-z0-9ℤ'](?![\wℤ'])"), fields=fields, inside=comment(tables[p]))
        new = AS_SAME.sub(lambda m: m[1], new)
        if new != text:
            changed.append((p, new))
    for p in sorted(TOP.glob("crates/*/must-fail/*.edit")):
        text, here, out = p.read_text(), {}, []
        for line in text.split("\n"):
            if line.startswith("file: "):
                here = tables.get(p.parent.parent / line[6:].strip(), {})
            if re.match(r"(old|new): ", line):
                line = line[:5] + WORD.sub(lambda w: here.get(w[0]) or (loud.get(w[0], w[0])), line[5:])
            elif line.startswith("#"):
                line = comment(here)(line)
            out.append(line)
        if "\n".join(out) != text:
            changed.append((p, "\n".join(out)))
    # names of pages that the crates no longer have: port.py turned them in the crates alone
    alive = {new for t in table.values() for new in t.values()}
    for p, text in antt.items():
        alive |= {turned for i in declared(text) for turned in [tables[p].get(i.name, i.name)]}
    for text in rt.values():
        alive |= set(re.findall(r"\w+", text))

    def page(w):
        if w in one or w in alive or not re.search(r"[a-z]-|[a-z][A-Z]|′", w):
            return one.get(w, w)
        ways = {w.replace("-", "_"), snake(w), snake(w).replace("-", "_")} | {w[:m.start()] + "_" + w[m.end():] for m in re.finditer("-", w)}
        ways = [x for x in sorted(ways) if x in alive and x != w]
        if len(ways) == 1:
            return ways[0]
        return w

    pages = ["README.md", "CONTRIBUTING.md", "CHANGELOG.md"] + [str(q.relative_to(TOP)) for q in sorted(TOP.glob("docs/*.md"))]
    for name in pages:
        p = TOP / name
        if p.exists():
            text = p.read_text()
            new = re.sub(r"`[^`\n]*`", lambda m: m[0] if re.search(r"\.(?:md|h|c|py|sh|txt)\b|^`(?:\./|[a-z]+ -)", m[0]) else WORD_IN.sub(lambda w: page(w[0]), m[0]), text)
            for m in re.finditer(r"`[^`\n]*`", new):
                for w in WORD_IN.findall(m[0]):
                    if re.search(r"[a-z]-[a-z]|^[a-z]\w*[A-Z]|′", w) and w not in alive:
                        said.append(f"page: {name}: {m[0][:80]}: {w} is no name of the crates")
            if new != text:
                changed.append((p, new))
    for p in sorted(list(TOP.glob("scripts/*")) + list(TOP.glob("python/*.py")) + list(TOP.glob("tests/**/*")) + list(TOP.glob("examples/*")) + list(TOP.glob("include/*"))):
        if p.is_file() and p.suffix in (".py", ".sh", ".c", ".h", ".md"):
            for k, line in enumerate(p.read_text(errors="ignore").split("\n"), 1):
                hits = [w for w in WORD_IN.findall(line) if w in loud]
                if hits:
                    said.append(f"look: {p.relative_to(TOP)}:{k}: names {', '.join(hits)}; a script or page of which respell.py turns nothing")
    for p, t in sorted(table.items()):
        rows = [(o, n) for o, n in sorted(t.items()) if o != n]
        if rows:
            print(module_of(p))
            for o, n in rows:
                print(f"    {o} -> {n}" + ("" if kinds[p, o] == "value" else f"  ({kinds[p, o]})"))
                total += 1
    print("\n".join(said))
    kinds_of = collections.Counter(kinds[p, o] for p, t in table.items() for o, n in t.items() if o != n)
    print(f"{total} names turn ({dict(kinds_of)}), {len(changed)} files change, {len(said)} things to look at")
    if "--table" in sys.argv and one:
        pathlib.Path(sys.argv[sys.argv.index("--table") + 1]).write_text("".join(f"{o}\t{n}\n" for o, n in sorted(one.items())))
    if not CHECK:
        for p, new in changed:
            p.write_text(new)


AS_SAME = re.compile(r"(?<=[{ ])([\w'ℤ-]+) as \1(?=[,}])")
WORD_IN = re.compile(r"[A-Za-z_][\wℤ→'′-]*[\wℤ'′]|[A-Za-z_]")

if __name__ == "__main__":
    main()
