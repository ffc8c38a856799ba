#!/bin/sh
# prove.sh GOAL run|lib NAME..: proves each crate; a program goes into build/bin, a static library stands in crates/NAME/out.
# All that rt prints is in build/log/GOAL.log; the end of it is shown where rt fails.
cd "$(dirname "$0")/.." || exit 2
log=$PWD/build/log/$1.log verb=$2
shift 2
mkdir -p build/log build/bin
: >"$log"
for name; do
    case $verb in
        # a program is linked when it is run: with no words and no input each ends at once
        run) (cd "crates/$name" && rt run </dev/null >/dev/null 2>>"$log") && cp "crates/$name/out/$name" build/bin/ ;;
        # the header promises any x86-64
        lib) (cd "crates/$name" && rt lib --cpu x86-64 >>"$log" 2>&1) ;;
        *) echo "prove.sh GOAL run|lib NAME.."; exit 2 ;;
    esac || { tail -n 20 "$log"; echo "rt $verb in crates/$name failed; all that it said is in $log"; exit 1; }
    echo "  $name proved"
done
