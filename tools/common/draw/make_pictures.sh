#!/bin/sh
# Makes the pictures of docs/: make_pictures.sh [FOLDER]. The machine is that of pictures.asm after 300 steps; its texts
# are the reference's, which writes what the commands asm, tree and core write.
here=$(cd "$(dirname "$0")" && pwd) || exit 1
folder=${1:-$here/../../../docs}
place=$(mktemp -d) || exit 1
trap 'rm -rf "$place"' EXIT
set -e
pip() { python3 -B "$here/../../../dev/reference/program.py" "$@"; }
pip asm < "$here/pictures.asm" > "$place/image"
pip tree 300 1 < "$place/image" > "$place/tree"
pip core 300 1 < "$place/image" > "$place/core"
python3 -B "$here/draw.py" tree < "$place/tree" > "$folder/tree.svg"
python3 -B "$here/draw.py" table 18 < "$place/core" > "$folder/page_table.svg"
python3 -B "$here/draw.py" handler 1 65 < "$place/core" > "$folder/handler.svg"
python3 -B "$here/draw.py" address 13 0xffc13008 < "$place/core" > "$folder/translation.svg"
