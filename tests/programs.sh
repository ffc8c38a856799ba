#!/bin/sh
# The programs as a user meets them: what no contract can say is tried here. stripfilter beside scripts/filter.py on two-byte samples, by ranked
# windows and as values, its input in odd pieces and two scans on one stream, its options and faults; listing on what cannot be read; sametable
# on shapes cut in several ways; tables to text and back, texts with each fault, choices of drops, and what docs/FITTING.md says of them.
set -u
cd "$(dirname "$0")/.." || exit 2
strip=$PWD/build/bin/stripfilter
list=$PWD/build/bin/listing
compare=$PWD/build/bin/sametable
make=$PWD/build/bin/maketable
show=$PWD/build/bin/showtable
drops=$PWD/build/bin/drops
for program in "$strip" "$list" "$compare" "$make" "$show" "$drops"; do
    [ -x "$program" ] || { echo "programs: $program is not built; run 'make programs'"; exit 2; }
done
work=$(mktemp -d)
trap 'rm -rf "$work"' EXIT
table=$PWD/tables/even.table
failed=0
fail() { echo "programs: $1"; failed=1; }
same() { cmp -s "$2" "$3" || fail "$1"; }
# says NAME WANTED COMMAND..: the first line that the command writes to either stream begins with WANTED
says() {
    name=$1 wanted=$2
    shift 2
    "$@" >"$work/said" 2>&1
    case $(head -n 1 "$work/said") in "$wanted"*) ;; *) fail "$name: $(head -n 1 "$work/said")" ;; esac
}

# a scan of 151 by 97 two-byte samples, the same at every run
python3 - >"$work/scan.pgm" <<'END'
import sys
width, height, state = 151, 97, 1
out = bytearray(b"P5 # two bytes a sample\n%d %d 1023\n" % (width, height))
for k in range(width * height):
    state = (state * 1103515245 + 12345) % 2**31
    out += ((state >> 12) % 1024).to_bytes(2, "big")
sys.stdout.buffer.write(out)
END

"$strip" "$table" <"$work/scan.pgm" >"$work/picture"
python3 scripts/filter.py "$table" <"$work/scan.pgm" >"$work/wanted"
same "two-byte samples" "$work/picture" "$work/wanted"
"$strip" --values "$table" <"$work/scan.pgm" >"$work/values"
python3 scripts/filter.py --values "$table" <"$work/scan.pgm" >"$work/wanted"
same "--values" "$work/values" "$work/wanted"
"$strip" "$table" --values <"$work/scan.pgm" >"$work/after"
same "--values after the table" "$work/after" "$work/values"
{ head -c 1001 "$work/scan.pgm"; sleep 0.2; tail -c +1002 "$work/scan.pgm" | head -c 9999; sleep 0.2; tail -c +11001 "$work/scan.pgm"; } | "$strip" "$table" >"$work/pieces"
same "input in pieces" "$work/pieces" "$work/picture"
cat "$work/scan.pgm" "$work/scan.pgm" | { "$strip" "$table" >"$work/first"; "$strip" "$table" >"$work/second"; }
same "the second of two scans on one stream" "$work/second" "$work/first"

# ranked windows on a scan of 41 by 37, maxval 200: a median, an even window, the smallest and the largest, one wider than the scan
python3 - >"$work/small.pgm" <<'END'
import sys
width, height, state = 41, 37, 1
out = bytearray(b"P5\n%d %d\n200\n" % (width, height))
for k in range(width * height):
    state = (state * 1103515245 + 12345) % 2**31
    out.append((state >> 12) % 201)
sys.stdout.buffer.write(out)
END
for window in "5 3 3" "3 2 4" "1 1 1" "1 31 31" "961 31 31" "15 1 29"; do
    # shellcheck disable=SC2086
    "$strip" --rank $window <"$work/small.pgm" >"$work/picture"
    # shellcheck disable=SC2086
    python3 scripts/filter.py --rank $window <"$work/small.pgm" >"$work/wanted"
    same "--rank $window" "$work/picture" "$work/wanted"
done
"$strip" --values --rank 5 3 3 <"$work/small.pgm" >"$work/values"
python3 scripts/filter.py --values --rank 5 3 3 <"$work/small.pgm" >"$work/wanted"
same "--values --rank" "$work/values" "$work/wanted"
"$strip" --rank 5 3 --values 3 <"$work/small.pgm" >"$work/after"
same "--values between the numbers" "$work/after" "$work/values"
cat "$work/small.pgm" "$work/small.pgm" | { "$strip" --rank 5 3 3 >"$work/first"; sleep 0.2; "$strip" --rank 5 3 3 >"$work/second"; }
same "the second of two ranked scans on one stream" "$work/second" "$work/first"
cp tables/a.table "$work/961"
(cd "$work" && "$strip" 961 <small.pgm) >"$work/picture"
"$strip" tables/a.table <"$work/small.pgm" >"$work/wanted"
same "a table with digits for a name" "$work/picture" "$work/wanted"
says "two numbers" "usage: stripfilter" "$strip" --rank 5 3
says "four numbers" "usage: stripfilter" "$strip" --rank 5 3 3 3
says "no number" "3x: no number" "$strip" --rank 5 3x 3
says "a table and --rank" "usage: stripfilter" "$strip" "$table" --rank 5 3 3
says "a rank above the window" "rank: the engine refused, 22" sh -c "'$strip' --rank 10 3 3 <'$work/small.pgm'"
says "a window of 32 rows" "rank: the engine refused, 8" sh -c "'$strip' --rank 10 32 3 <'$work/small.pgm'"
says "ten bits to rank" "scan: header: the maxval 1023 needs more than 8 bits" sh -c "'$strip' --rank 5 3 3 <'$work/scan.pgm'"
says "a sample above the maxval" "scan: row 1, column 0: the sample is above the maxval 7" sh -c "printf 'P5 2 2 7\n\001\002\011\003' | '$strip' --rank 5 3 3 2>&1 >'$work/out'"
says "a ranked scan cut off" "scan: cut off in row 36 after 40 of 41 bytes" sh -c "head -c -1 '$work/small.pgm' | '$strip' --rank 5 3 3 2>&1 >'$work/out'"

says "--help" "usage: stripfilter" "$strip" --help
says "-h" "usage: stripfilter" "$strip" -h
says "--version" "stripfilter " "$strip" --version
says "no table" "usage: stripfilter" "$strip"
says "an unknown option" "--value: no such option" "$strip" --value "$table"
says "a table that is not there" "$work/none: " "$strip" "$work/none"
head -c 8 "$table" >"$work/short.table"
says "a table cut off" "$work/short.table: table refused, 2" "$strip" "$work/short.table"
: >"$work/empty"
says "an empty scan" "scan: the input is empty" sh -c "'$strip' '$table' <'$work/empty'"
says "a directory for a scan" "scan: Is a directory" sh -c "'$strip' '$table' <'$work'"
says "standard input closed" "scan: Bad file descriptor" sh -c "'$strip' '$table' <&-"
says "a scan cut off" "scan: cut off in row 0" sh -c "head -c 40 '$work/scan.pgm' | '$strip' '$table' 2>&1 >'$work/out'"
says "no PGM" "scan: not a binary PGM" sh -c "echo P2 1 1 1 | '$strip' '$table'"
"$list" <tables/a.table >"$work/listed"
same "the listing of Table A" "$work/listed" crates/listing/stdout
# sixteen rectangles and more bytes: 6 where they begin with a mark, 7 where not; none behind byte 156 is read
full() { head -c 9 tables/a.table; for k in 1 2 3 4 5 6 7 8 9 10 11 12 13 14 15 16; do printf '\002\000\006\001\001\376\376\000\001'; done; }
{ full; printf '\002\000\006'; head -c 44 /dev/zero; } >"$work/mark.table"
{ full; printf '\002\000'; head -c 45 /dev/zero; } >"$work/stray.table"
for name in mark stray; do
    case $name in mark) number=6 words="there are more than 16 rectangles" ;; *) number=7 words="a field does not begin with 02 00 06" ;; esac
    rest=$({ "$list" >"$work/listed"; wc -c; } <"$work/$name.table")
    [ "$(cat "$work/listed") $rest" = "refused $number 44" ] || fail "listing: $(cat "$work/listed") for $name.table, and $rest of 200 bytes left"
    says "stripfilter on $name.table" "$work/$name.table: table refused, $number: $words" "$strip" "$work/$name.table"
done
"$list" <"$work" >"$work/listed" 2>"$work/said"
[ -s "$work/said" ] || fail "listing does not say that it cannot read"

# shapes: a header (b 8, word 16) and rectangles, each as four edges and a weight in octal
rect() { for bytes; do printf '\002\000\006'"$bytes"; done; }
head8() { printf '\001\000\006\010\000\000\000\000\020'; }
{ head8; rect '\001\001\376\376\000\005'; } >"$work/square"
{ head8; rect '\001\001\000\376\000\005' '\000\001\376\376\000\005'; } >"$work/halves"
{ head8; for row in 377:376 000:377 001:000; do for col in 377:376 000:377 001:000; do rect "\\${row%:*}\\${col%:*}\\${row#*:}\\${col#*:}\\000\\005"; done; done; } >"$work/nine"
{ head8; rect '\001\001\376\376\000\002' '\001\001\376\376\000\003' '\017\017\360\360\000\000'; } >"$work/layers"
{ head8; rect '\001\002\376\377\377\373'; } >"$work/moved"
{ head8; rect '\001\001\376\376\000\005' '\017\017\016\016\377\376'; } >"$work/corner"
{ printf '\001\000\006\010\000\000\000\000\021'; rect '\001\001\376\376\000\005'; } >"$work/wider"
{ printf '\001\000\006\010\000\000\001\000\020'; rect '\001\001\376\376\000\005'; } >"$work/cut"
for shape in square halves nine layers; do
    says "the square and $shape" "same" "$compare" "$work/square" "$work/$shape"
    says "$shape and halves" "same" "$compare" "$work/$shape" "$work/halves"
done
says "the square moved and turned round" "differ at row -1, column -1: 5 and 0" "$compare" "$work/nine" "$work/moved"
says "the same the other way" "differ at row -1, column -1: 0 and 5" "$compare" "$work/moved" "$work/nine"
says "the last corner" "differ at row 15, column 15: 0 and -2" "$compare" "$work/layers" "$work/corner"
says "another word" "refused, 24: the two tables differ in b, t or w" "$compare" "$work/square" "$work/wider"
says "drops" "refused, 25: one of the two tables drops bits" "$compare" "$work/square" "$work/cut"
says "drops in the first" "refused, 25: one of the two tables drops bits" "$compare" "$work/cut" "$work/square"
says "a first file refused" "first table refused, 6: there are more than 16 rectangles" "$compare" "$work/mark.table" "$work/short.table"
says "a second file refused" "second table refused, 2: a field is cut off" "$compare" "$work/square" "$work/short.table"
says "one table" "usage: sametable TABLE TABLE" "$compare" "$work/square"
says "three tables" "usage: sametable TABLE TABLE" "$compare" "$work/square" "$work/square" "$work/square"
says "a file that is not there" "$work/none: " "$compare" "$work/square" "$work/none"
[ "$("$compare" "$work/square" "$work/none" 2>/dev/null)" = "" ] || fail "sametable answers without a second file"

# every table there and back, by standard input and by name
for name in tables/*.table; do
    "$show" "$name" >"$work/text" && "$make" "$work/text" >"$work/made"
    same "$name to text and back" "$work/made" "$name"
    "$show" <"$name" | "$make" >"$work/made"
    same "$name to text and back through a pipe" "$work/made" "$name"
done
# a text in another order, with comments, tabs and carriage returns, and no line feed at its end
printf '# Table A\r\n\tword 016 # bits\r\n\r\nrectangle  lead 1 1 trail -2 -2 weight 1#\nshift 2\ndrops 0 0 0\nrectangle lead 0 -0 trail -1 -1 weight -9\n  bits 8' >"$work/text"
"$make" <"$work/text" >"$work/made"
same "a text in another order" "$work/made" tables/a.table
# each fault once, at its line: a line of Table A's text exchanged
"$show" tables/a.table >"$work/a.txt"
# faulty LINE TEXT WANTED: the text with that line exchanged is refused with this message, and nothing is written
faulty() {
    awk -v n="$1" -v line="$2" 'NR == n { $0 = line } { print }' "$work/a.txt" >"$work/text"
    "$make" "$work/text" >"$work/made" 2>"$work/said"
    [ "$(cat "$work/said")" = "$work/text: $3" ] || fail "maketable on '$2': $(cat "$work/said")"
    [ ! -s "$work/made" ] || fail "maketable writes beside '$3'"
}
faulty 1 "bit 8" "line 1: the line begins with none of bits, drops, shift, word, rectangle"
faulty 6 "ramp lead 0 0 trail -1 -1 weight -9" "line 6: the line begins with none of bits, drops, shift, word, rectangle"
faulty 1 "bits" "line 1: the line is not of the form: bits B"
faulty 1 "bits -8" "line 1: the line is not of the form: bits B"
faulty 2 "drops 0 0 0 0" "line 2: the line is not of the form: drops Q1 Q2 Q3"
faulty 3 "shift 2x" "line 3: the line is not of the form: shift T"
faulty 4 "word w 16" "line 4: the line is not of the form: word W"
faulty 5 "rectangle lead 1 1 trial -2 -2 weight 1" "line 5: the line is not of the form: rectangle lead ROW COLUMN trail ROW COLUMN weight WEIGHT"
faulty 5 "rectangle lead 1 1 trail -2 -2 weight +1" "line 5: the line is not of the form: rectangle lead ROW COLUMN trail ROW COLUMN weight WEIGHT"
faulty 6 "rectangle lead 0 0 trail -1 -1 weight 32768" "line 6: the weight is not from -32768 to 32767"
faulty 6 "rectangle lead 0 0 trail -1 -1 weight -32769" "line 6: the weight is not from -32768 to 32767"
faulty 6 "word 16" "line 6: an earlier line has said this"
faulty 1 "" "there is no line that begins with bits"
faulty 2 "" "there is no line that begins with drops"
faulty 3 "# shift 2" "there is no line that begins with shift"
faulty 4 "#word 16" "there is no line that begins with word"
faulty 1 "bits 13" "line 1: refused, 3: b is not from 1 to 12"
faulty 1 "bits 264" "line 1: refused, 3: b is not from 1 to 12"
faulty 2 "drops 8 0 0" "line 2: refused, 4: q1 is not below b, or q2 or q3 is above 8"
faulty 3 "shift 32" "line 3: refused, 5: t is above 31, or w is not from 8 to 32"
faulty 4 "word 7" "line 4: refused, 5: t is above 31, or w is not from 8 to 32"
faulty 5 "rectangle lead 16 1 trail -2 -2 weight 1" "line 5: refused, 8: a lead is not from -15 to 15, a trail not from -16 to 14, or a trail is not below its lead"
faulty 6 "rectangle lead 0 99999999999999999999 trail -1 -1 weight -9" "line 6: refused, 8: a lead is not from -15 to 15, a trail not from -16 to 14, or a trail is not below its lead"
faulty 5 "rectangle lead 1 1 trail -2 -2 weight 9999" "refused, 10: the largest or the smallest pixel does not fit w bits"
head -n 4 "$work/a.txt" >"$work/text"
says "a text without rectangles" "standard input: refused, 9: there is no rectangle" sh -c "'$make' <'$work/text'"
for k in 1 2 3 4 5 6 7 8 9 10 11 12 13 14 15 16 17; do echo "rectangle lead 1 1 trail -2 -2 weight 1"; done >>"$work/text"
says "seventeen rectangles" "standard input: line 21: refused, 6: there are more than 16 rectangles" sh -c "'$make' <'$work/text'"
{ cat "$work/a.txt"; head -c 65535 /dev/zero | tr '\0' '#'; } | head -c 65535 >"$work/text"
"$make" "$work/text" >"$work/made"
same "a text of 65,535 bytes" "$work/made" tables/a.table
{ cat "$work/text"; echo; } >"$work/long"
says "a text of 65,536 bytes" "$work/long: the text is longer than 65535 bytes" "$make" "$work/long"
says "two texts" "usage: maketable [TEXT]" "$make" "$work/text" "$work/text"
says "a text that is not there" "$work/none: " "$make" "$work/none"
# a table that question 10 alone refuses is shown with its refusal; any other refused file is not shown
{ head -c 8 tables/a.table; printf '\011'; tail -c +10 tables/a.table; } >"$work/nine.table"
"$show" "$work/nine.table" >"$work/text"
{ sed 's/^word 16$/word 9/' "$work/a.txt"; echo "# refused, 10: the largest or the smallest pixel does not fit w bits"; } >"$work/wanted"
same "a table refused with 10 shown" "$work/text" "$work/wanted"
says "the same made again" "$work/text: refused, 10: the largest or the smallest pixel does not fit w bits" "$make" "$work/text"
says "a refused file" "$work/mark.table: refused, 6: there are more than 16 rectangles" "$show" "$work/mark.table"
[ -z "$("$show" "$work/mark.table" 2>/dev/null)" ] || fail "showtable writes beside a refusal"
says "two tables" "usage: showtable [TABLE]" "$show" tables/a.table tables/a.table
says "a table that is not there" "$work/none: " "$show" "$work/none"
# choices of drops
says "drops of nothing" "usage: drops TABLE" "$drops"
says "drops with too many words" "usage: drops TABLE" "$drops" tables/a.table 1 2 3
says "drops of a refused file" "$work/mark.table: refused, 6: there are more than 16 rectangles" "$drops" "$work/mark.table"
says "drops of no file" "$work/none: " "$drops" "$work/none"
says "a bound that is no number" "drops: MOST is no number: 1x" "$drops" tables/a.table 1x
says "a width of 1025" "drops: refused, 12: the width is not from 1 to 1024" "$drops" tables/a.table 1 1025
"$drops" tables/even.table 100 >"$work/listed"
sed -n '/^### drops/,/^### /s/^    \([q0-9]\)/\1/p' docs/FITTING.md >"$work/wanted"
same "the choices in docs/FITTING.md" "$work/listed" "$work/wanted"
# how far two choices are off on the strip, as docs/FITTING.md says
off() { "$show" tables/even.table | sed "s/^drops .*/drops $1/" | "$make" >"$work/q.table"; "$strip" --values "$work/q.table" <scans/strip.pgm | tr ' ' '\n'; }
off "0 0 0" >"$work/full"
for choice in "1 0 0" "2 0 0"; do
    range=$(off "$choice" | paste "$work/full" - | awk 'NF == 2 { d = $1 - $2; if (d < low) low = d; if (high < d) high = d } END { print low, "to", high }')
    grep -q "\`$choice\`.* from $range" docs/FITTING.md || fail "docs/FITTING.md on $choice: it is off from $range"
done
# the five commands of docs/FITTING.md, in a folder that has tables/ and scans/
sed -n '/^## From a text/,/^## /s/^    \$ //p' docs/FITTING.md >"$work/commands"
[ "$(wc -l <"$work/commands")" -eq 5 ] || fail "docs/FITTING.md has not five commands"
mkdir "$work/desk" && ln -s "$PWD/tables" "$PWD/scans" "$work/desk"
(PATH=$PWD/build/bin:$PATH && cd "$work/desk" && sh -e ../commands) >"$work/said" 2>&1 || fail "the five commands of docs/FITTING.md"
sed -n '/^## From a text/,/^## /s/^    \([0-9e]\)/\1/p' docs/FITTING.md >"$work/wanted"
same "what the five commands print" "$work/said" "$work/wanted"
python3 scripts/filter.py "$work/desk/mine.table" <scans/strip.pgm >"$work/wanted"
same "what the five commands filter" "$work/desk/filtered.pgm" "$work/wanted"

[ $failed -eq 0 ] && echo "programs: ok"
exit $failed
