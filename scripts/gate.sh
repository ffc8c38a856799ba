#!/bin/sh
# The gate. `rt ci` proves every crate, tries the must-fail edits and runs the programs; the tests of the programs, the library for C, the examples,
# the Python module, installing, the stack and the outside tests then use what it proved, the lowered form of the passes over columns, which the
# library was made of, is searched for a division, and the library's names from outside are held to what the header says. The last line is that of `rt ci`, 'N passed, M failed', and stands there only if all else passed.
# All that `rt ci` prints is in build/log/test.log.
cd "$(dirname "$0")/.." || exit 2
log=build/log/test.log
mkdir -p build/log
python3 scripts/agree.py || exit 1
{ rt ci; echo $? >"$log.status"; } 2>&1 | tee "$log" | sed -u '$d'
last=$(tail -n 1 "$log")
if [ "$(cat "$log.status")" -ne 0 ]; then
    echo "$last"
    exit 1
fi
# `rt ci` passes with edits that it could not try, and with those that a proof file alone refuses: each is refused at a fact, and none is bad
ok=$(grep '^rt: ok;' "$log")
edits=$(find crates/*/must-fail -name '*.edit' | wc -l)
case $ok in
    *"must-fail edits: $edits refused"*) ;;
    *) echo "not all of the $edits must-fail edits are refused: $ok"; exit 1 ;;
esac
case $ok in *", "[0-9]*" bad"*) echo "a must-fail edit is bad: $ok"; exit 1 ;; esac
if grep '^rt: must-fail .*(only because a proof file names' "$log"; then
    echo "a must-fail edit is refused only at the shape of a proof"
    exit 1
fi
make --no-print-directory programs examples python installed stack outside || { echo "what stands around the crates failed"; exit 1; }
python3 scripts/passes.py || exit 1
# what the header says that the library needs from outside
needs=$(nm -u build/libstrip.a | sed -n 's/^ *U //p' | sort -u | tr '\n' ' ')
if [ "$needs" != "memcpy memset " ]; then
    echo "the library for C needs from outside: $needs"
    exit 1
fi
echo "$last"
