"""The must-fail edits of one crate, each with the place of its refusal, and whether that is a fact or only the shape of the proof.

    python3 scripts/edits.py CRATE            # all edits of the crate
    python3 scripts/edits.py CRATE LABEL..    # these edits

`rt must-fail` tries what has changed since it last did. At the shape only: a proof file names a place that the edited code does not have,
which shows nothing about the promise. Under each edit stands how the refusal begins: read it.
"""
import re
import subprocess
import sys

SHAPE = "only because a proof file names what the edit took away"


def shown(line, labels):
    """A line of `rt must-fail` about one of these edits, with the kind of the refusal before it."""
    m = re.match(r"rt: must-fail (\w+)/(\w+)\.edit: (refused, as it must be|NOT REFUSED|NOT TRIED|BAD EDIT):? ?(.*)", line)
    if not m or labels and m[2] not in labels:
        return None
    kind = m[3] if not m[3].startswith("refused") else "SHAPE" if SHAPE in m[4] else "fact"
    return f"{kind:12} {m[1]}/{m[2]}\n{'':13}{m[4]}"


def main(args):
    if not args:
        sys.exit(__doc__)
    crate, labels = args[0], set(args[1:])
    tried = subprocess.run(["rt", "must-fail", crate], capture_output=True, text=True)
    lines = list(filter(None, (shown(l, labels) for l in tried.stdout.splitlines())))
    print("\n".join(lines) or tried.stdout + tried.stderr)
    sys.exit(tried.returncode)


main(sys.argv[1:])
