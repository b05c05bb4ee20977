#!/bin/sh
# Makes of what was proved for a machine the static program and the library for C:
#     packaging/machine.sh MACHINE OBJECT ARCHIVE FOLDER
# MACHINE is x86-64-v2, x86-64 (processors before 2009), aarch64 or windows. OBJECT and ARCHIVE are what rattle made of crates/rnxcmp and
# crates/rnxcmp_c (packaging/machines.mk); for windows they are LLVM's modules of the two, for x86-64. FOLDER gets the program `rnxcmp`, or
# `rnxcmp.exe`, and the folder `library`. The same input makes the same bytes, with the same compilers and C libraries.
set -eu
export LC_ALL=C
machine=$1
object=$2
archive=$3
made=$4
top=$(cd "$(dirname "$0")/.." && pwd)
kit=$(dirname "$(dirname "$(readlink -f "$(command -v rt)")")")
work=$(mktemp -d)
trap 'rm -rf "$work"' EXIT
folder=$work/made
mkdir "$folder"
c="-std=gnu11 -O2 -Wall -Wextra -Werror -ffile-prefix-map=$top=. -ffile-prefix-map=$work=."

# linked COMPILER FILE..: the static program for Linux, at an address that the system chooses
linked() {
    compiler=$1
    shift
    "$compiler" -static-pie -s -Wl,--build-id=none -Wl,-z,relro,-z,now,-z,noexecstack -o "$folder/rnxcmp" "$@"
}

# compiled COMPILER WORDS FILE..: each file of C, as an object for a program, by a compiler with more words
compiled() {
    compiler=$1
    more="$2 $("$top/library/hardened.sh" "$compiler")"
    shift 2
    for file; do
        # shellcheck disable=SC2086
        "$compiler" $c $more -c "$top/$file.c" -o "$work/$(basename "$file").o"
    done
}

# for_windows MODULE NAME: a module of LLVM for Linux, as an object for Windows, by the clang and the words that rattle compiles with
for_windows() {
    "$kit/toolchain/bin/clang" --no-default-config -S -emit-llvm -Xclang -disable-llvm-passes -x ir "$1" -o "$work/$2.linux.ll"
    "$top/packaging/retarget.py" < "$work/$2.linux.ll" > "$work/$2.ll"
    "$kit/toolchain/bin/clang" --target=x86_64-w64-windows-gnu --no-default-config -no-canonical-prefixes -fintegrated-cc1 -Werror -march=x86-64 \
        -mllvm -no-trap-after-noreturn -mllvm -trap-unreachable -mllvm -disable-machine-licm -mllvm -disable-postra-machine-licm \
        -mllvm -sink-common-insts=false -ffunction-sections -fdata-sections -fno-addrsig -O3 -c -x ir "$work/$2.ll" -o "$work/$2.o"
}

windows() {
    mingw=x86_64-w64-mingw32
    # The proved code calls for memory by Linux' rules for results, so this C goes the same way. (The kit's clang has no headers of its own.)
    "$kit/toolchain/bin/clang" --target=x86_64-unknown-linux-gnu --no-default-config -std=c11 -O2 -fno-stack-protector -march=x86-64 \
        -isystem "$(gcc -print-file-name=include)" -isystem "/usr/include/$(gcc -print-multiarch)" -isystem /usr/include \
        -emit-llvm -c "$top/library/heap.c" -o "$work/heap.bc"
    for_windows "$work/heap.bc" heap
    for_windows "$object" program
    for_windows "$archive" calls
    compiled $mingw-gcc -municode packaging/windows packaging/os
    # shellcheck disable=SC2046
    $mingw-gcc $("$top/library/hardened.sh" $mingw-gcc) -static -s -municode \
        -Wl,--no-insert-timestamp,--dynamicbase,--high-entropy-va,--nxcompat -o "$folder/rnxcmp.exe" \
        "$work/program.o" "$work/windows.o" "$work/os.o" "$work/heap.o"
    CC=$mingw-gcc LD=$mingw-ld AR=$mingw-ar OBJCOPY=$mingw-objcopy CFLAGS=-DRNXCMP_PROCESSOR_IS_GOOD=1 "$top/library/build_windows.sh" "$work/calls.o" "$work/heap.o" "$folder/library"
}

case $machine in
x86-64-v2)
    linked gcc "$object" "$kit/c/libos_c.a" "$kit/c/liblibc_c.a"
    "$top/library/build.sh" "$archive" "$folder/library"
    ;;
x86-64)
    linked gcc "$object" "$kit/c/libos_c.a" "$kit/c/liblibc_c.a"
    CFLAGS=-DRNXCMP_PROCESSOR_IS_GOOD=1 "$top/library/build.sh" "$archive" "$folder/library"
    ;;
aarch64)
    tool=aarch64-linux-gnu
    compiled $tool-gcc -fPIE packaging/os library/heap
    linked $tool-gcc "$object" "$work/os.o" "$work/heap.o"
    CC=$tool-gcc LD=$tool-ld AR=$tool-ar OBJCOPY=$tool-objcopy "$top/library/build.sh" "$archive" "$folder/library"
    ;;
windows) windows ;;
*)
    printf 'machine.sh: there is no machine %s\n' "$("$top/packaging/quoted.sh" "$machine")" >&2
    exit 1
    ;;
esac
rm -rf "$made"
mkdir -p "$(dirname "$made")"
mv "$folder" "$made"
