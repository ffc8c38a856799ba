#!/bin/sh
# Installs into a temporary folder: exactly the files that are meant, an example compiled and run by what pkg-config says, against the shared library
# and against the archive, which offer the header's calls and no other name; the programs run; and uninstalling leaves nothing.
set -eu
cd "$(dirname "$0")/.."
work=$(mktemp -d)
trap 'rm -rf "$work"' EXIT
fail() { echo "installed: $1"; exit 1; }
goal() { make --no-print-directory "$1" DESTDIR="$work" PREFIX=/opt/strip >"$work.log" 2>&1 || { cat "$work.log"; fail "make $1 failed"; }; rm -f "$work.log"; }

version=$(sed -n 's/^#define STRIP_VERSION "\(.*\)"/\1/p' include/strip.h)
major=${version%%.*}
goal install
root=$work/opt/strip
(cd "$root" && find . ! -type d | sort) >"$work/there"
printf './%s\n' bin/drops bin/listing bin/maketable bin/sametable bin/showtable bin/stripfilter include/strip.h lib/libstrip.a lib/libstrip.so "lib/libstrip.so.$major" "lib/libstrip.so.$version" \
    lib/pkgconfig/strip.pc | sort | diff - "$work/there" || fail "these files are not those that are meant"

sed -n 's/^[a-z].* \**\(strip_[a-z_]*\)(.*);$/\1/p' include/strip.h | sort >"$work/declared"
nm -D --defined-only "$root/lib/libstrip.so" | awk '{ print $3 }' | sort | diff "$work/declared" - || fail "libstrip.so does not offer the header's calls and no other name"
nm -g --defined-only "$root/lib/libstrip.a" | awk '$2 ~ /[A-Z]/ && NF == 3 { print $3 }' | sort | diff "$work/declared" - || fail "libstrip.a does not offer the header's calls and no other name"

if command -v pkg-config >/dev/null; then
    flags=$(PKG_CONFIG_SYSROOT_DIR=$work PKG_CONFIG_LIBDIR=$root/lib/pkgconfig pkg-config --cflags --libs strip)
    [ "$(PKG_CONFIG_LIBDIR=$root/lib/pkgconfig pkg-config --modversion strip)" = "$version" ] || fail "strip.pc has another version"
else
    echo "installed: no pkg-config here, so strip.pc is read by hand"
    grep -qx 'prefix=/opt/strip' "$root/lib/pkgconfig/strip.pc" && grep -qx "Version: $version" "$root/lib/pkgconfig/strip.pc" || fail "strip.pc is wrong"
    flags="-I$root/include -L$root/lib -lstrip"
fi
# shellcheck disable=SC2086
gcc -std=c11 -Wall -Wextra -Werror examples/scan.c $flags -o "$work/shared"
LD_LIBRARY_PATH=$root/lib "$work/shared" | diff examples/scan.expected - || fail "the example with the shared library"
readelf -d "$work/shared" | grep -q "libstrip.so.$major" || fail "the example does not need libstrip.so.$major"
gcc -std=c11 -Wall -Wextra -Werror -I"$root/include" examples/scan.c "$root/lib/libstrip.a" -o "$work/static"
"$work/static" | diff examples/scan.expected - || fail "the example with the archive"

"$root/bin/listing" <tables/a.table | diff crates/listing/stdout - || fail "the installed listing"
[ "$("$root/bin/stripfilter" --version)" = "stripfilter $version" ] || fail "the installed stripfilter"
[ "$("$root/bin/sametable" tables/a.table tables/a.table)" = same ] || fail "the installed sametable"
"$root/bin/showtable" tables/a.table | "$root/bin/maketable" | cmp -s - tables/a.table || fail "the installed showtable and maketable"
"$root/bin/drops" tables/a.table 0 | grep -q '^0 0 0 10 12 ' || fail "the installed drops"

goal uninstall
[ -z "$(find "$root" ! -type d)" ] || fail "uninstalling leaves $(find "$root" ! -type d)"
echo "installed: ok"
