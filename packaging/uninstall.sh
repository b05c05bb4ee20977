#!/bin/sh
# Removes what packaging/install.sh put below a folder, and the folders of its own that are empty then: packaging/uninstall.sh FOLDER
# What it removes is found by installing into a new folder, so that the list stands in one place.
set -eu
prefix=$1
here=$(dirname "$0")
work=$(mktemp -d)
trap 'rm -rf "$work"' EXIT
mkdir "$work/library"
for name in librnxcmp.so.2 librnxcmp.a rnxcmp.h rnxcmp.f90; do
    : > "$work/library/$name"
done
"$here/install.sh" "$work/all" /bin/sh "$work/library"
(cd "$work/all" && find . ! -type d) | while IFS= read -r name; do
    rm -f "$prefix/$name"
done
rm -rf "$prefix/lib/rnxcmp/rnxcmp/__pycache__"
doc=share/doc/rnxcmp
for folder in lib/rnxcmp/rnxcmp lib/rnxcmp lib/cmake/rnxcmp $doc/examples $doc/docs/pictures $doc/docs $doc/bench $doc/conformance $doc; do
    [ ! -d "$prefix/$folder" ] || rmdir "$prefix/$folder" 2> /dev/null ||
        printf '%s has other files, and stays\n' "$("$here/quoted.sh" "$prefix/$folder")" >&2
done
