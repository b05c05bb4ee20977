#!/bin/sh
# Says what is missing here to link the programs of machines, before anything is proved for them: compilers.sh MACHINE..
# MACHINE is one of packaging/machine.sh, or musl, another C library for x86-64-v2. Each compiler has to link a program of C.
status=0
work=$(mktemp -d)
trap 'rm -rf "$work"' EXIT
for machine; do
    case $machine in
    aarch64) compiler=aarch64-linux-gnu-gcc packages='gcc-aarch64-linux-gnu libc6-dev-arm64-cross' ;;
    windows) compiler=x86_64-w64-mingw32-gcc packages=gcc-mingw-w64-x86-64 ;;
    musl) compiler=musl-gcc packages=musl-tools ;;
    *) compiler=gcc packages='gcc libc6-dev' ;;
    esac
    if ! command -v $compiler > /dev/null; then
        missing="there is no $compiler"
    elif ! printf '#include <stdio.h>\nint main(void) { return puts("") < 0; }\n' | $compiler -static -x c -o "$work/made" - 2> /dev/null; then
        missing="$compiler links no program of C"
    else
        continue
    fi
    echo "$missing: apt-get install $packages" >&2
    status=1
done
exit $status
