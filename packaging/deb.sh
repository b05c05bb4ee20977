#!/bin/sh
# Makes the Debian package of a machine, from its program, its library and the folder of documents of a release:
#     packaging/deb.sh ARCHITECTURE PROGRAM LIBRARY DOCUMENTS PACKAGE
# ARCHITECTURE is Debian's name, amd64 or arm64. All times are SOURCE_DATE_EPOCH. MAINTAINER names who answers for the package.
set -eu
architecture=$1
program=$2
library=$3
documents=$4
package=$5
top=$(cd "$(dirname "$0")/.." && pwd)
version=$(cat "$top/VERSION")
debian=$(echo "$version" | tr - "~") # a version under work comes before the one that it becomes
maintainer=${MAINTAINER:-The rnxcmp authors <rnxcmp@users.invalid>} # there is no address: who publishes gives one
root=$(mktemp -d)
trap 'rm -rf "$root"' EXIT
chmod 755 "$root"

"$top/packaging/install.sh" "$root/usr" "$program" "$library" share/zsh/vendor-completions
doc=$root/usr/share/doc/rnxcmp
cp -r "$documents/." "$doc"
{ cat "$doc/NOTICES" && printf '\n' && cat "$doc/LICENSE-MIT"; } > "$doc/copyright"
rm "$doc/NOTICES" "$doc/LICENSE-MIT"
{ # the changes of this version, and those since, in the form that Debian's tools read
    printf 'rnxcmp (%s) stable; urgency=medium\n\n' "$debian"
    case $version in *-dev) newest=Unreleased ;; *) newest=$version ;; esac
    awk -v newest="$newest" '/^## / { past = found; found = found || $2 == newest }
        past { next } # an item may have several lines
        /^- / { sub(/^- /, "  * "); printf "%s%s", end, $0; end = "\n"; next }
        /^  [^ ]/ { sub(/^ /, ""); printf "%s", $0 }
        END { print "" }' "$doc/CHANGELOG.md" | fold -s -w 70 | sed 's/^[^ ]/    &/; s/ *$//'
    printf '\n -- %s  %s\n' "$maintainer" "$(date -u -R -d "@$SOURCE_DATE_EPOCH")"
} | gzip -9n > "$doc/changelog.gz"
rm "$doc/CHANGELOG.md"
find "$root/usr/share/man" -name '*.1' -exec gzip -9n {} +
install -d "$root/usr/lib/python3/dist-packages" # the module, for the system's Python too
ln -s ../../rnxcmp/rnxcmp "$root/usr/lib/python3/dist-packages/rnxcmp"

mkdir "$root/DEBIAN"
cat > "$root/DEBIAN/control" << END
Package: rnxcmp
Version: $debian
Architecture: $architecture
Section: science
Priority: optional
Maintainer: $maintainer
Recommends: python3 (>= 3.8), libc6 (>= 2.14)
Installed-Size: $(find "$root/usr" -type f -printf '%s\n' | awk '{ n += int(($1 + 1023) / 1024) } END { print n }')
Description: compact, expand and check RINEX 3.0x observation files
 RINEX 3.0x observation files to Compact RINEX 3.0 (Hatanaka) and back, by a
 proved program; rnxcmp-file, a tool in Python over the proved library that
 does whole files of an archive, verifies them, and removes none; and that
 library for C, C++, Fortran and Python.
END
echo "librnxcmp 2 rnxcmp (>= 2.0.0~)" > "$root/DEBIAN/shlibs"
echo "activate-noawait ldconfig" > "$root/DEBIAN/triggers"
(cd "$root" && find usr -type f | sort | tr '\n' '\0' | xargs -0 md5sum > DEBIAN/md5sums)
find "$root" -exec touch -h -d "@$SOURCE_DATE_EPOCH" {} +
dpkg-deb --root-owner-group -Zgzip -z9 --build "$root" "$package" > /dev/null
