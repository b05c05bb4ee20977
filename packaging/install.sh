#!/bin/sh
# Puts the program, its other names, the tool for whole files, the library for C, the manual pages, the completions, the notices and the pages
# below a folder:
#     packaging/install.sh FOLDER PROGRAM LIBRARY [ZSH]
# LIBRARY is the folder that library/build.sh made. If it has no shared library, rnxcmp-file, which is Python over it, is left out, and a
# message says so. ZSH is the folder below FOLDER in which zsh looks for completions, if not share/zsh/site-functions. The lower-case names
# are further copies. If the file system takes both spellings of a name for one file, the second copy replaces the first, with the same
# content.
set -eu
prefix=$1
program=$2
library=$3
zsh=${4:-share/zsh/site-functions}
shared=librnxcmp.so.2
here=$(dirname "$0")
version=$(cat "$here/../VERSION")
[ -x "$program" ] || { printf 'no program %s: run make first\n' "$("$here/quoted.sh" "$program")" >&2; exit 1; }
install -d "$prefix/bin" "$prefix/share/man/man1" "$prefix/share/bash-completion/completions" "$prefix/$zsh" \
    "$prefix/share/fish/vendor_completions.d"
page() { # page SOURCE NAME: a manual page, with the version in it
    sed "s/@VERSION@/$version/" "$here/man/$1.1" > "$prefix/share/man/man1/$2.1"
    chmod 644 "$prefix/share/man/man1/$2.1"
}
install -m 755 "$program" "$prefix/bin/rnxcmp"
if [ -f "$library/$shared" ]; then
    package=$prefix/lib/rnxcmp/rnxcmp
    install -d "$package"
    install -m 644 "$here"/../python/rnxcmp/*.py "$here/../python/rnxcmp/py.typed" "$library/$shared" "$package"
    install -m 755 "$here/bin/rnxcmp-file" "$prefix/bin/rnxcmp-file"
    page rnxcmp-file rnxcmp-file
else
    name=$("$here/quoted.sh" "$library/$shared")
    printf 'rnxcmp-file is left out: there is no library %s (make library)\n' "$name" >&2
fi
if [ -f "$library/librnxcmp.a" ]; then
    "$here/install_library.sh" "$prefix" "$library"
fi
for name in RNX2CRX rnx2crx; do
    install -m 755 "$here/bin/RNX2CRX" "$prefix/bin/$name"
done
for name in CRX2RNX crx2rnx; do
    install -m 755 "$here/bin/CRX2RNX" "$prefix/bin/$name"
done
for name in rnxcmp RNX2CRX CRX2RNX rnx2crx crx2rnx; do
    page rnxcmp "$name"
done
completions() { # completions SOURCE FILE: those of a shell, with the options of the program
    "$here/completions.py" "$1" > "$2"
    chmod 644 "$2"
}
for name in rnxcmp RNX2CRX CRX2RNX rnx2crx crx2rnx rnxcmp-file; do
    completions rnxcmp.bash "$prefix/share/bash-completion/completions/$name"
    completions rnxcmp.fish "$prefix/share/fish/vendor_completions.d/$name.fish"
done
completions _rnxcmp "$prefix/$zsh/_rnxcmp"
"$here/install_pages.sh" "$prefix/share/doc/rnxcmp"
