#!/bin/sh
# Puts the library for C, C++ and Fortran below a folder, so that pkg-config and CMake find it: install_library.sh FOLDER LIBRARY
# LIBRARY is the folder that library/build.sh or build_windows.sh made. All names in the files are relative, so that the folder may be moved.
set -eu
prefix=$1
library=$2
top=$(cd "$(dirname "$0")/.." && pwd)
version=$(cat "$top/VERSION")
number=${version%%-*} # CMake takes numbers alone
install -d "$prefix/include" "$prefix/lib/pkgconfig" "$prefix/lib/cmake/rnxcmp"
install -m 644 "$library/rnxcmp.h" "$top/include/rnxcmp.f90" "$prefix/include"
install -m 644 "$library/librnxcmp.a" "$prefix/lib"
if [ -f "$library/librnxcmp-2.dll" ]; then
    install -d "$prefix/bin"
    install -m 755 "$library/librnxcmp-2.dll" "$prefix/bin"
    install -m 644 "$library/librnxcmp.dll.a" "$prefix/lib"
else
    install -m 644 "$library/librnxcmp.so.2" "$prefix/lib"
    ln -sf librnxcmp.so.2 "$prefix/lib/librnxcmp.so"
fi
sed -e "s/@VERSION@/$version/" -e 's|^libdir=.*|libdir=${pcfiledir}/..|' -e 's|^includedir=.*|includedir=${pcfiledir}/../../include|' \
    "$top/library/rnxcmp.pc.in" > "$prefix/lib/pkgconfig/rnxcmp.pc"
for name in rnxcmpConfig rnxcmpConfigVersion; do
    sed -e "s/@VERSION@/$number/" -e "s/@FIRST@/${number%%.*}/" "$top/library/cmake/$name.cmake" > "$prefix/lib/cmake/rnxcmp/$name.cmake"
done
chmod 644 "$prefix/lib/pkgconfig/rnxcmp.pc" "$prefix"/lib/cmake/rnxcmp/*.cmake
