#!/bin/sh
# Builds the library of timed calls, proved, over a copy of this tree's crates.
#
#     speed/library.sh FOLDER
#
# Leaves libnd_speed.a in FOLDER. Its sources stand in speed/nd_speed as text, since the gate need not prove them: they claim
# nothing of their own. Wants rt, which proves anew only the libraries that no check has left built in out/rlib of their crates.
set -e
here=$(cd "$(dirname "$0")" && pwd)
into=$(cd "$1" && pwd)
made=$(mktemp -d)
trap 'rm -rf "$made"' EXIT

cp "$here/../HANDLES" "$made"
for name in $(sed -n 's/^\([a-z_]*\)[ :].*/\1/p' "$here/../crates.txt"); do
    mkdir -p "$made/crates/$name"
    for part in src specs proofs; do
        [ ! -d "$here/../crates/$name/$part" ] || cp -r "$here/../crates/$name/$part" "$made/crates/$name"
    done
    if [ -d "$here/../crates/$name/out/rlib" ]; then
        mkdir "$made/crates/$name/out"
        cp -r "$here/../crates/$name/out/rlib" "$made/crates/$name/out"
    fi
done
cp "$here/../crates.txt" "$made"
echo "nd_speed staticlib: nd_shape_and_slice nd_array_core nd_iter nd_linalg nd_stacking nd_numbers nd_numeric num_traits" >> "$made/crates.txt"
cp -r "$here/nd_speed" "$made/crates"
find "$made/crates/nd_speed" -name '*.txt' | while read -r file; do mv "$file" "${file%.txt}"; done
(cd "$made/crates/nd_speed" && rt lib > "$made/log" 2>&1) || { tail -20 "$made/log"; exit 1; }
cp "$made/crates/nd_speed/out/libnd_speed.a" "$into"
