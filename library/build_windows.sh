#!/bin/sh
# Makes the library for C on Windows of the proved code and the C of its memory, as objects for Windows: build_windows.sh CALLS HEAP FOLDER
# The folder gets rnxcmp.h, librnxcmp.a, librnxcmp-2.dll with librnxcmp.dll.a for linkers, and rnxcmp.pc. CC, LD, AR, OBJCOPY and CFLAGS
# are those of build.sh.
set -eu
calls=$1
heap=$2
folder=$3
top=$(cd "$(dirname "$0")/.." && pwd)
work=$(mktemp -d)
trap 'rm -rf "$work"' EXIT

# (No guard of the stack, for which each program over the archive would need a library more.)
"$top/library/archive.sh" "$work" "$folder" "$top/library/rnxcmp.c" "$heap" "$calls"
{ echo EXPORTS && cat "$work/names"; } > "$work/librnxcmp.def"
# (The linker would choose an address by the name of the folder.)
$CC -shared -s -static -o "$folder/librnxcmp-2.dll" "$work/librnxcmp.o" "$work/librnxcmp.def" \
    -Wl,--no-insert-timestamp,--disable-auto-image-base,--dynamicbase,--high-entropy-va,--nxcompat \
    -Wl,--out-implib,"$folder/librnxcmp.dll.a"
