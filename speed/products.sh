#!/bin/sh
# Builds the library of timed calls, and prints a table of microseconds a call: loops over elements by iterators, and products
# of matrices and vectors, beside plain loops in Rust and beside numpy, all in one run.
#
#     speed/products.sh
#
# Wants what elements.sh wants.
set -e
here=$(cd "$(dirname "$0")" && pwd)
made=$(mktemp -d)
trap 'rm -rf "$made"' EXIT

"$here/library.sh" "$made"
rustc -O -C target-cpu=x86-64-v2 -L "native=$made" -l static=nd_speed -o "$made/driver" "$here/elements.rs"
"${PYTHON:-/usr/bin/python3}" "$here/products.py" "$made/driver" products
