#!/bin/sh
# Compiles the header as C11 and as C++ and the examples against build/libstrip.a; runs screen on tables whole and damaged, and scan, and holds what
# they say to the files *.expected. Then pastes the README's lines on calling from C.
set -eu
cd "$(dirname "$0")/.."
flags='-Wall -Wextra -Wpedantic -Werror'
gcc -std=c11 $flags -fsyntax-only -x c include/strip.h
if command -v g++ >/dev/null; then
    g++ -std=c++11 $flags -fsyntax-only -x c++ include/strip.h
else
    echo "examples: no g++ here, so the header was not compiled as C++"
fi
gcc -std=c11 $flags -Ibuild examples/screen.c build/libstrip.a -o build/screen
gcc -std=c11 $flags -Ibuild examples/scan.c build/libstrip.a -o build/scan
build/scan | diff examples/scan.expected - || { echo "examples/scan.c does not say what examples/scan.expected has"; exit 1; }

work=$(mktemp -d)
trap 'rm -rf "$work"' EXIT
table=$PWD/tables/a.table
screen=$PWD/build/screen

# says NAME: the table on standard input under that name, what is said of it and the exit status
says() {
    cat >"$work/$1"
    (cd "$work" && { "$screen" "$1" && echo "  0" || echo "  $?"; })
}

square='\002\000\006\001\001\376\376\000\001'
header() { printf '\001\000\006'"$1"; }
{
    says table_a <"$table"
    printf '' | says empty
    head -c 8 "$table" | says cut_off_header
    head -c 26 "$table" | says cut_off_rectangle
    { header '\015\000\000\000\002\020'; printf "$square"; } | says bits_13
    { header '\010\010\000\000\002\020'; printf "$square"; } | says drop_8_of_8
    { header '\010\000\000\000\040\020'; printf "$square"; } | says shift_32
    { head -c 9 "$table"; for k in 1 2 3 4 5 6 7 8 9 10 11 12 13 14 15 16 17; do printf "$square"; done; } | says seventeen
    { head -c 9 "$table"; for k in 1 2 3 4 5 6 7 8 9 10 11 12 13 14 15 16; do printf "$square"; done; printf '\000'; } | says stray_byte
    head -c 11 "$table" | says cut_off_mark
    { head -c 9 "$table"; printf '\002\000\006\001\001\001\376\000\001'; } | says edges_equal
    head -c 9 "$table" | says header_alone
    { header '\010\000\000\000\002\012'; tail -c 18 "$table"; } | says word_10
    { header '\010\000\000\000\002\011'; tail -c 18 "$table"; } | says word_9
    (cd "$work" && { "$screen" missing && echo "  0" || echo "  $?"; })
} >"$work/said"
diff examples/screen.expected "$work/said" || { echo "examples/screen.c does not say what examples/screen.expected has"; exit 1; }

awk '/^## /{ on = $0 == "## From C" } /^```/{ code = !code } on && !code && /^    /{ print substr($0, 5) }' README.md | MAKEFLAGS=s sh >"$work/pasted"
diff examples/scan.expected "$work/pasted" || { echo "the README's lines on calling from C give something else"; exit 1; }
echo "examples: ok"
