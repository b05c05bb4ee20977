#!/bin/sh
# Puts the pages for users, with the pictures and examples that they cite, into a folder: install_pages.sh FOLDER
# They lie there as in the sources, so that their links work. NOTICES may be set to the file of that name.
set -eu
folder=$1
top=$(cd "$(dirname "$0")/.." && pwd)
install -d "$folder/docs/pictures" "$folder/examples" "$folder/bench" "$folder/conformance"
install -m 644 "${NOTICES:-$top/NOTICES}" "$top"/LICENSE-* "$top/CHANGELOG.md" "$top/SECURITY.md" "$folder"
sed '/^- Change it: /d' "$top/README.md" > "$folder/README.md" # whose pages are in the source archive
chmod 644 "$folder/README.md"
for name in USE ERRORS FILES ARCHIVES LIBRARY FORMATS GUARANTEES READING; do
    install -m 644 "$top/docs/$name.md" "$folder/docs"
done
install -m 644 "$top/docs/archive.png" "$folder/docs"
install -m 644 "$top"/docs/pictures/*.svg "$folder/docs/pictures"
install -m 644 "$top"/examples/compact.* "$top/examples/stream.c" "$folder/examples"
for name in archive_page availability parallel; do
    install -m 755 "$top/examples/$name.py" "$folder/examples"
done
for name in bench conformance; do
    install -m 644 "$top/$name/README.md" "$folder/$name"
done
