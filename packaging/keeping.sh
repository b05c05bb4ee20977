#!/bin/sh
# Makes a toolchain whose clang first copies the module that it compiles: keeping.sh TOOLCHAIN FOLDER. All else in FOLDER is a link.
set -eu
kit=$1
folder=$2
rm -rf "$folder"
mkdir -p "$folder/bin"
ln -s "$kit/lib" "$folder/lib"
for tool in "$kit"/bin/*; do
    ln -s "$tool" "$folder/bin/"
done
rm "$folder/bin/clang"
cat > "$folder/bin/clang" << END
#!/bin/sh
for word; do
    case \$word in *.bc) cp "\$word" "$folder/module.bc" || exit ;; esac
done
exec "$kit/bin/clang" "\$@"
END
chmod +x "$folder/bin/clang"
