#!/bin/sh
# Makes the library for C of the archive that rattle made of crates/rnxcmp_c, in a folder: build.sh crates/rnxcmp_c/out/librnxcmp_c.a FOLDER
# The folder gets rnxcmp.h, librnxcmp.a, librnxcmp.so.2 with the name librnxcmp.so, rnxcmp.pc, and rnxcmp.f90. CC, LD, AR and OBJCOPY name
# the tools, and CFLAGS has more words for the compiler.
set -eu
proved=$1
folder=$2
top=$(cd "$(dirname "$0")/.." && pwd)
work=$(mktemp -d)
trap 'rm -rf "$work"' EXIT
export CC="${CC:-cc}" LD="${LD:-ld}" AR="${AR:-ar}" OBJCOPY="${OBJCOPY:-objcopy}"

CFLAGS="-fPIC $("$top/library/hardened.sh" "$CC") ${CFLAGS:-}" \
    "$top/library/archive.sh" "$work" "$folder" "$top/library/rnxcmp.c" "$top/library/heap.c" \
    --whole-archive "$proved" --no-whole-archive
$CC -shared -s -o "$folder/librnxcmp.so.2" "$work/librnxcmp.o" -Wl,-soname,librnxcmp.so.2 -Wl,--version-script="$top/library/symbols.map" \
    -Wl,-z,defs -Wl,-z,text -Wl,-z,noexecstack -Wl,-z,relro -Wl,-z,now
ln -sf librnxcmp.so.2 "$folder/librnxcmp.so"
cp "$top/include/rnxcmp.f90" "$folder/"
