#!/bin/sh
# Makes what a release consists of, of the programs and libraries that packaging/machine.sh made:
#     packaging/dist.sh FOLDER MACHINES MACHINE..
# MACHINES/MACHINE/built is what was made for a machine. FOLDER gets of each an archive; for x86-64-v2 and aarch64 a Debian package and
# wheels for Python too, for windows a wheel; a source archive of the last commit; and SHA256SUMS, which gpg signs where KEY names a key.
# Each but the signature is the same bytes wherever and whenever it is made, with the same compilers and C libraries: all times are
# SOURCE_DATE_EPOCH, the last commit's if not set. Nothing is fetched.
set -eu
umask 022
export LC_ALL=C TZ=UTC PYTHONDONTWRITEBYTECODE=1
to=$1
machines=$2
shift 2
top=$(cd "$(dirname "$0")/.." && pwd)
for machine; do
    [ -d "$machines/$machine/built" ] && continue
    name=$("$top/packaging/quoted.sh" "$machine")
    folder=$("$top/packaging/quoted.sh" "$machines")
    printf 'nothing was made for %s in %s: make dist TARGETS=%s\n' "$name" "$folder" "$name" >&2
    exit 1
done
for tool in rt dpkg-deb python3 gzip tar sha256sum; do
    command -v "$tool" > /dev/null || { echo "there is no $tool, which a release needs" >&2; exit 1; }
done
if [ -e "$top/.git" ]; then
    : "${SOURCE_DATE_EPOCH:=$(git -C "$top" log -1 --format=%ct)}"
else # unpacked from a source archive, whose files have the commit's time
    : "${SOURCE_DATE_EPOCH:=$(stat -c %Y "$top/VERSION")}"
fi
export SOURCE_DATE_EPOCH
version=$(cat "$top/VERSION")
debian=$(echo "$version" | tr - "~")
rm -rf "$to"
mkdir -p "$to"
work=$(mktemp -d "$to/work.XXXXXX")
trap 'rm -rf "$work"' EXIT

# documents MACHINE FOLDER: the documents of a machine that packaging/install_pages.sh doesn't have
documents() {
    mkdir -p "$2/docs" "$2/conformance"
    cp -r "$work/pages/." "$2/docs"
    [ "$1" = windows ] || install -m 644 "$top/packaging/LGPL-2.1.txt" "$2" # of glibc
    install -m 644 "$top/tests/relation.py" "$2/conformance" # the suite for other programs
    install -m 755 "$top/conformance/conform.py" "$top/tests/texts.py" "$2/conformance"
    "$top/tests/collect.py" > "$2/conformance/cases.json"
}

# parts MACHINE ROOT FILE: the list of parts, with the sum of each file below ROOT
parts() {
    "$top/packaging/parts.py" "$SOURCE_DATE_EPOCH" "$1" "$2" > "$work/parts.json"
    install -m 644 "$work/parts.json" "$3"
}

# linux MACHINE NAME: the archive for Linux
linux() {
    built=$machines/$1/built
    root=$work/$2
    "$top/packaging/install.sh" "$root" "$built/rnxcmp" "$built/library"
    documents "$1" "$root/share/doc/rnxcmp"
    parts "$1" "$root" "$root/share/doc/rnxcmp/parts.spdx.json"
    tar -C "$work" --sort=name --mtime="@$SOURCE_DATE_EPOCH" --owner=0 --group=0 --numeric-owner --format=gnu -cf - "$2" | gzip -9n > "$to/$2.tar.gz"
}

# windows NAME: the archive for Windows
windows() {
    built=$machines/windows/built
    root=$work/$1
    doc=$root/share/doc/rnxcmp
    install -d "$root/bin" "$doc"
    for name in rnxcmp RNX2CRX CRX2RNX; do
        install -m 755 "$built/rnxcmp.exe" "$root/bin/$name.exe"
    done
    "$top/packaging/install_library.sh" "$root" "$built/library"
    "$top/packaging/install_pages.sh" "$doc"
    documents windows "$doc"
    parts windows "$root" "$doc/parts.spdx.json"
    "$top/packaging/zipped.py" "$root" "$to/$1.zip"
}

# package MACHINE ARCHITECTURE: the Debian package, whose list of parts is made of its own files
package() {
    built=$machines/$1/built
    rm -rf "$work/documents"
    documents "$1" "$work/documents"
    rm -r "$work/documents/conformance" # it is in the archives
    file=$to/rnxcmp_${debian}_$2.deb
    "$top/packaging/deb.sh" "$2" "$built/rnxcmp" "$built/library" "$work/documents" "$file"
    dpkg-deb -x "$file" "$work/unpacked"
    parts "$1" "$work/unpacked" "$work/documents/parts.spdx.json"
    rm -rf "$work/unpacked" "$file"
    "$top/packaging/deb.sh" "$2" "$built/rnxcmp" "$built/library" "$work/documents" "$file"
}

# wheel MACHINE PROGRAM TAG
wheel() {
    python3 "$top/python/build_wheel.py" "$machines/$1/built/library" "$to" --program "$machines/$1/built/$2" --tag "$3" > /dev/null
}

"$top/docs/pages.py" "$work/pages"
sed "s/^\(rattle  *\)build  */\1$(rt version)  /" "$top/NOTICES" > "$work/NOTICES"
export NOTICES="$work/NOTICES" # which packaging/install_pages.sh and python/build_wheel.py take
for machine; do
    case $machine in
    x86-64-v2)
        linux "$machine" "rnxcmp-$version-linux-x86_64"
        package "$machine" amd64
        wheel "$machine" rnxcmp manylinux2014_x86_64
        wheel "$machine" rnxcmp musllinux_1_2_x86_64
        ;;
    x86-64) linux "$machine" "rnxcmp-$version-linux-x86_64-v1" ;;
    aarch64)
        linux "$machine" "rnxcmp-$version-linux-aarch64"
        package "$machine" arm64
        wheel "$machine" rnxcmp manylinux2014_aarch64
        ;;
    windows)
        windows "rnxcmp-$version-windows-x86_64"
        wheel "$machine" rnxcmp.exe win_amd64
        ;;
    esac
done

if [ -e "$top/.git" ]; then # the sources
    git -C "$top" archive --format=tar --prefix="rnxcmp-$version/" HEAD | gzip -9n > "$to/rnxcmp-$version.tar.gz"
fi
rm -rf "$work"
(cd "$to" && sha256sum -- * > SHA256SUMS.new && mv SHA256SUMS.new SHA256SUMS)
if [ -n "${KEY:-}" ]; then
    gpg --batch --yes --local-user "$KEY" --armor --detach-sign --output "$to/SHA256SUMS.asc" "$to/SHA256SUMS"
fi
