#!/bin/sh
# Copies libraries of arrays into an empty repository by ../use_in.sh, checks a caller of them there, and prints how long that took.
#
#     tests/use_in.sh [--with-proofs] [LIBRARY ..]
#
# With no LIBRARY: nd_array_core. The caller uses nd_array_core whatever else is named. --with-proofs wants the libraries built in
# this tree; without it they are proved from nothing, which takes some twenty minutes on four processors.
set -eu
top=$(cd "$(dirname "$0")/.." && pwd)
proofs=
[ "${1:-}" != --with-proofs ] || { proofs=$1; shift; }
libraries="${*:-nd_array_core}"
made=$(mktemp -d)
trap 'rm -rf "$made"' EXIT

git init -q "$made"
echo 'Handles allowed: none.' > "$made/HANDLES"
"$top/use_in.sh" $proofs --libraries "$libraries" "$made" > "$made/said"
sed -n '/^nd_/p' "$made/said" > "$made/crates.txt"
echo "my_crate: nd_array_core" >> "$made/crates.txt"
mkdir -p "$made/crates/my_crate/src"
cat > "$made/crates/my_crate/src/lib.rt" <<'CALLER'
//! A caller of nd_array_core.
#![tactic(auto, using(std::proofs::lemmas::Bool::Decides::nat_tests, nd_array_core::proofs::AxesOfDimensionTypes::known_axes))]

ghost use Rattle.nd_array_core.specs.Prelude.{ShowsTable, table_of, turned_half};

use nd_array_core::prelude::*;

/// Puts the rows of an image in the opposite order, and its columns too.
pub fn turn_half<S: Data>(image: &mut ArrayBase<S, Ix2>)
    ensures { ShowsTable image.new (turned_half (table_of image.old)) }
{
    image.invert_axis(Axis(0));
    image.invert_axis(Axis(1));
}
CALLER
begun=$(date +%s)
(cd "$made/crates/my_crate" && rt check) > "$made/log" 2>&1 || { tail -30 "$made/log"; exit 1; }
echo "a caller of $libraries, in a repository of its own, is proved after $(($(date +%s) - begun)) seconds"
