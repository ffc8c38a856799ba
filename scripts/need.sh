#!/bin/sh
# need.sh TOOL..: names each of these tools that is missing, and how to get it. Ends with 2 where one is.
missing=0
for tool; do
    command -v "$tool" >/dev/null 2>&1 && continue
    case $tool in
        rt) how="the command of the Rattle kit: put the kit's bin folder on the PATH" ;;
        gcc | g++ | make | python3 | valgrind) how="the package $tool of Debian: apt install $tool" ;;
        cargo) how="Rust's build tool: apt install cargo, or rustup" ;;
        pkg-config) how="the package pkg-config of Debian: apt install pkg-config" ;;
        objcopy | readelf | nm) how="one of the binutils: apt install binutils" ;;
        *) how="not on the PATH" ;;
    esac
    echo "missing: $tool, $how" >&2
    missing=2
done
exit $missing
