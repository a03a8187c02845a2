#!/bin/sh
# Builds the library of timed calls, and prints tables of microseconds a call of arithmetic of numbers on square arrays in several
# orders, beside plain loops in Rust and beside numpy, all in one run.
#
#     speed/arithmetic.sh [FOLDER]
#
# With a FOLDER that library.sh has left libnd_speed.a in, it builds no library. All memory, numpy's too, lies in pages of one size, as
# with `huge` of elements.sh, whose wants it has.
set -e
here=$(cd "$(dirname "$0")" && pwd)
made=$(mktemp -d)
trap 'rm -rf "$made"' EXIT

library=${1:-$made}
[ -n "$1" ] || "$here/library.sh" "$made"
rustc -O -C target-cpu=x86-64-v2 -L "native=$library" -l static=nd_speed -o "$made/driver" "$here/elements.rs"
export GLIBC_TUNABLES=glibc.malloc.hugetlb=1
"${PYTHON:-/usr/bin/python3}" "$here/arithmetic.py" "$made/driver" arithmetic
