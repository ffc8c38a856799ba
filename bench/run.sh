#!/bin/sh
# The speed of the engine and of the ranked window beside C loops; instruction counts where valgrind is there. With BEFORE=folder the
# library of that folder (libstrip.a of another commit) is measured in turn with this one, its calls renamed.
cd "$(dirname "$0")/.." || exit 1
flags="-O3 -march=x86-64 -falign-functions=64 -falign-loops=64 -std=c11 -Wall -Wextra -Wpedantic -Werror -D_POSIX_C_SOURCE=199309L"
loops="engine tuned remainder"
before=
if [ -n "$BEFORE" ]; then
    nm "$BEFORE/libstrip.a" | awk '$2 == "T" { print $3, "old_" $3 }' >build/before.names
    objcopy --redefine-syms=build/before.names "$BEFORE/libstrip.a" build/libbefore.a || exit 1
    before="-DBEFORE build/libbefore.a"
    loops="engine before tuned remainder"
    # the calls of the other library under their own names, those that it has not from this one
    awk '{ print "#define", $1, $2 }' build/before.names >build/before.names.h
    gcc -O2 -D_POSIX_C_SOURCE=200809L -Ibuild -include build/before.names.h bench/stack.c build/libstrip.a build/libbefore.a -o build/stack-before -lpthread -Wl,-z,now || exit 1
fi
gcc $flags -Ibuild bench/bench.c build/libstrip.a $before -o build/bench || exit 1
gcc $flags -Ibuild bench/rank.c build/libstrip.a -o build/bench-rank || exit 1

# counts WORD...: the instructions of a program run with these arguments
counts() {
    valgrind --tool=callgrind --callgrind-out-file=/dev/null "$@" 2>&1 | sed -n 's/.*Collected : //p'
}

if command -v valgrind >/dev/null 2>&1; then
    echo "instructions per sample and rectangle, 1024 columns, 16, 4 and 1 rectangles"
    for loop in $loops; do
        for drops in 000 111 230; do
            for rects in 16 4 1; do
                for rows in 40 140; do
                    counts build/bench $loop $rects $drops $rows
                done | paste -s - | awk -v k=$rects '{ printf "%.1f\n", ($2 - $1) / (100 * 1024 * k) }'
            done | paste -s - | awk -v l=$loop -v d=$drops '{ printf "%-10sdrops %s%8.1f%8.1f%8.1f\n", l, d, $1, $2, $3 }'
        done
    done
    echo
    echo "instructions a row that the weight grid and the word test take, 2 and 16 rectangles and 16 nested"
    for kind in "2 " "16 " "16 nested-"; do
        for word in wide grid; do
            for rows in 40 140; do
                counts build/bench engine ${kind% *} ${kind#* }$word $rows
            done
        done | paste -s - | awk '{ printf "%.0f\n", ($4 - $3 - $2 + $1) / 100 }'
    done | paste -s - | awk '{ printf "%-19s%8d%8d%8d\n", "engine", $1, $2, $3 }'
    echo
    echo "instructions per pixel of the ranked window, 1024 columns, squares of 3, 15 and 31"
    for loop in library stores fixed huang; do
        for bits in 8 6; do
            for side in 3 15 31; do
                for rows in 40 80; do
                    counts build/bench-rank $loop $bits $side $rows
                done | paste -s - | awk '{ printf "%.0f\n", ($2 - $1) / (40 * 1024) }'
            done | paste -s - | awk -v l=$loop -v b=$bits '{ printf "%-8sb = %-8d%6d%6d%6d\n", l, b, $1, $2, $3 }'
        done
    done
    echo
fi
build/bench || exit 1
echo
scripts/stack.sh || exit 1
if [ -n "$before" ]; then
    echo "before:"
    build/stack-before || exit 1
fi
echo
build/bench-rank
