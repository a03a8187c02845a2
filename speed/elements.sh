#!/bin/sh
# Builds the library of timed calls, and prints a table of microseconds a call over all elements of 1000 rows of 1000,
# beside the same loops in plain Rust and beside numpy, all in one run.
#
#     speed/elements.sh [huge]
#
# numpy asks the kernel for huge pages for long blocks, and malloc doesn't. With `huge` malloc asks for them too (by a
# tunable of glibc's), so that all three lie in pages of one size.
#
# Wants rt, rustc, and a python3 with numpy: PYTHON names another than /usr/bin/python3.
set -e
here=$(cd "$(dirname "$0")" && pwd)
made=$(mktemp -d)
trap 'rm -rf "$made"' EXIT

"$here/library.sh" "$made"
rustc -O -C target-cpu=x86-64-v2 -L "native=$made" -l static=nd_speed -o "$made/driver" "$here/elements.rs"
[ "$1" != huge ] || export GLIBC_TUNABLES=glibc.malloc.hugetlb=1
"${PYTHON:-/usr/bin/python3}" "$here/elements.py" "$made/driver"
