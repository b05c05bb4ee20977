#!/bin/sh
# Makes what every machine has of the library for C: archive.sh WORK FOLDER FILE..
# Each FILE that ends in .c is compiled, and all others are words for the linker. FOLDER gets the archive
# librnxcmp.a, rnxcmp.h and rnxcmp.pc. WORK gets librnxcmp.o, the archive's one object, in which the header's names
# alone are global, and `names`, which lists them. CC, LD, AR and OBJCOPY name the tools, and CFLAGS has more words
# for CC.
set -eu
work=$1
folder=$2
shift 2
top=$(cd "$(dirname "$0")/.." && pwd)
version=$(cat "$top/VERSION")

mkdir -p "$folder"
python3 "$top/library/words.py" "$top/crates/crx_base/src/fault.rt" > "$work/words.inc"
for file; do
    shift
    case $file in
    *.c)
        object=$work/$(basename "$file" .c).o
        # shellcheck disable=SC2086
        $CC -std=c11 -O2 -Wall -Wextra -Wpedantic -Werror -ffile-prefix-map="$top=." -ffile-prefix-map="$work=." \
            ${CFLAGS:-} -I "$top/include" -I "$work" -DRNXCMP_VERSION="\"$version\"" -c "$file" -o "$object"
        set -- "$@" "$object"
        ;;
    *) set -- "$@" "$file" ;;
    esac
done
$LD -r -o "$work/all.o" "$@"
sed -n 's/^ *\(rnxcmp_[a-z_]*\);$/\1/p' "$top/library/symbols.map" > "$work/names"
$OBJCOPY --keep-global-symbols="$work/names" "$work/all.o" "$work/librnxcmp.o"
rm -f "$folder/librnxcmp.a"
$AR rcD "$folder/librnxcmp.a" "$work/librnxcmp.o"
cp "$top/include/rnxcmp.h" "$folder/"
sed "s/@VERSION@/$version/" "$top/library/rnxcmp.pc.in" > "$folder/rnxcmp.pc"
