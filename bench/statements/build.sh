#!/usr/bin/env bash
# Builds the program of this folder, which stands on the kit alone: build.sh FOLDER makes it in the new folder and prints its path.
# Its files end in .txt, since `rt ci` refuses a .rt file outside the crates.
set -eu
[ $# = 1 ] || { echo "usage: build.sh FOLDER" >&2; exit 1; }
here=$(cd "$(dirname "$0")" && pwd)
mkdir "$1"
copy=$(cd "$1" && pwd)
mkdir -p "$copy/.git" "$copy/crates/statements/src"
cp "$here/../../HANDLES" "$copy"
for file in main jobs made; do
    cp "$here/$file.rt.txt" "$copy/crates/statements/src/$file.rt"
done
echo 'statements: sqlite sqlite_disk sqlite_store sqlite_std_file sqlite_value' > "$copy/crates.txt"
# The first run proves and builds it; without words it then does nothing.
(cd "$copy/crates/statements" && rt run) > "$copy/log" 2>&1 || true
program=$copy/crates/statements/out/statements
[ -x "$program" ] || { tail -n 20 "$copy/log" >&2; exit 1; }
echo "$program"
