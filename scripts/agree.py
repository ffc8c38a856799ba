#!/usr/bin/env python3
"""What stands in several places and has one source: says where a place differs, or writes it anew with --write.

    sentences of the refusals   crates/refusals/specs/Sentences.antt  ->  include/strip.h, python/strip.py, docs/RULES.md
    a text's own faults         crates/faults/specs/Faults.antt       ->  docs/RULES.md
    version                     include/strip.h                       ->  stripfilter, CHANGELOG.md
    a whole scan in C           examples/scan.c                       ->  README.md
    line counts                 the files themselves                  ->  docs/AUDIT.md
"""
import pathlib
import re
import sys

TOP = pathlib.Path(__file__).resolve().parent.parent
WRITE = sys.argv[1:] == ["--write"]
faults = []


def read(name):
    return (TOP / name).read_text()


def fault(name, what):
    faults.append(f"{name}: {what}")


def block(name, begin, end, body):
    """what stands between the two marks of a file is `body`"""
    text = read(name)
    if text.count(begin) != 1 or end not in text.split(begin)[1]:
        return fault(name, f"no place between '{begin.strip()}' and '{end.strip()}'")
    before, rest = text.split(begin)
    after = rest[rest.index(end):]
    new = before + begin + body + after
    if new != text and WRITE:
        (TOP / name).write_text(new)
    elif new != text:
        fault(name, f"differs behind '{begin.strip()}'; scripts/agree.py --write writes it anew")


def sentences():
    text = read("crates/refusals/specs/Sentences.antt")
    found = re.findall(r'^\s+(?:∷ )?"([^"]*)"$', text, re.M)
    header = read("include/strip.h")
    block("include/strip.h", "        /* sentences */\n", "        /* end */\n", "".join(f'        "{s}",\n' for s in found))
    block("python/strip.py", "    # sentences\n", "    # end\n", "".join(f'    "{s}",\n' for s in found))
    enum = header[header.index("STRIP_OK = 0"):header.index("} strip_refusal;")]
    named = {int(n): re.sub(r"\s+", " ", words) for n, words in re.findall(r"= (\d+),?\s+/\* (.*?) \*/", enum, re.S)}
    rules = {int(n): words for n, words in re.findall(r"^\| (\d+) \| (.*?) \|", read("docs/RULES.md"), re.M)}
    for number, sentence in enumerate(found[1:], 1):
        for name, words in (("include/strip.h", named), ("docs/RULES.md", rules)):
            if not re.match(re.escape(sentence) + r"($|[^\w])", words.get(number, "")):
                fault(name, f"refusal {number} does not begin with '{sentence}'")
    for name, words in (("include/strip.h", named), ("docs/RULES.md", rules)):
        if max(words, default=0) >= len(found):
            fault(name, f"refusal {max(words)} has no sentence")


def own_sentences():
    text = read("crates/faults/specs/Faults.antt")
    found = re.findall(r'^\s+(?:∷ )?"([^"]*)"$', text, re.M)
    body = "".join(f"- {number}: {words}\n" for number, words in enumerate(found, 100) if words)
    block("docs/RULES.md", "The words for the text's own faults:\n\n", "\nA file is shown", body)


def version():
    header = read("include/strip.h")
    parts = [re.search(rf"#define STRIP_VERSION_{p} (\d+)", header)[1] for p in ("MAJOR", "MINOR", "PATCH")]
    number = ".".join(parts)
    if f'#define STRIP_VERSION "{number}"' not in header:
        fault("include/strip.h", f"STRIP_VERSION is not {number}")
    if f'"stripfilter {number}"' not in read("crates/filtering/specs/Messages.antt"):
        fault("crates/filtering/specs/Messages.antt", f"stripfilter does not say {number}")
    newest = re.search(r"^## (\S+)", read("CHANGELOG.md"), re.M)
    if not newest or newest[1] != number:
        fault("CHANGELOG.md", f"its newest version is not {number}")


def scan_example():
    block("README.md", "<!-- examples/scan.c -->\n", "<!-- end -->", "```c\n" + read("examples/scan.c") + "```\n")


def line_counts():
    text = read("docs/AUDIT.md")
    for n, name in re.findall(r"^\| +([\d,]+) \| `([^`]+)`", text, re.M):
        files = sorted(p for p in TOP.glob(name) if p.is_file())
        lines = sum(len(p.read_text().splitlines()) for p in files)
        if not files:
            fault("docs/AUDIT.md", f"{name} is not there")
        elif lines != int(n.replace(",", "")) and not WRITE:
            fault("docs/AUDIT.md", f"{name} has {lines} lines")
        elif WRITE:
            text = text.replace(f"| {n} | `{name}`", f"| {lines:,} | `{name}`")
    if WRITE:
        (TOP / "docs/AUDIT.md").write_text(text)


sentences()
own_sentences()
version()
scan_example()
line_counts()
print("\n".join(faults) or "agree: ok")
sys.exit(1 if faults else 0)
