#!/bin/sh
# The stack that each call takes, by bench/stack.c, and the list of it in include/strip.h: a stated figure is not below what is measured, nor more
# than 512 bytes above it.
cd "$(dirname "$0")/.." || exit 2
gcc -O2 -std=c11 -D_POSIX_C_SOURCE=200809L -Wall -Wextra -Wpedantic -Werror -Ibuild bench/stack.c build/libstrip.a -o build/stack -lpthread -Wl,-z,now || exit 1
build/stack >build/stack.measured || exit 1
sed -n '/^ \* Stack:/,/^ \*\//p' include/strip.h | grep -o 'strip_[a-z_]* *[0-9][0-9,]*' | tr -d , >build/stack.stated
awk '
    NR == FNR { stated[$1] = $2; next }
    { printf "%-20s%8d bytes, stated %d\n", $1, $2, stated[$1]; seen[$1] = 1 }
    stated[$1] < $2 || stated[$1] > $2 + 512 { print "include/strip.h states the stack of " $1 " wrongly"; bad = 1 }
    END { for (call in stated) if (!seen[call]) { print "the stack of " call " is not measured"; bad = 1 }; exit bad }
' build/stack.stated build/stack.measured
