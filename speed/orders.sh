#!/bin/sh
# Builds the library of timed calls, and times calls over one or two arrays whose axes lie in memory in any order, beside the
# best of some plain loops in Rust, beside numpy and, where xtensor is installed, beside that: all in one process, over the same memory.
#
#     speed/orders.sh [quick]
#
# Writes all rows, and those that miss the aims with a reason each, to speed/orders.txt, a picture of them to docs/orders.svg, and prints a
# table of few rows.
# With `quick` it takes fewer sizes and less time, some 5 minutes, and writes neither file.
#
# Wants rt, rustc, and a python3 with numpy: PYTHON names another than /usr/bin/python3. For xtensor also g++.
set -e
here=$(cd "$(dirname "$0")" && pwd)
made=$(mktemp -d)
trap 'rm -rf "$made"' EXIT

"$here/library.sh" "$made"
rustc --edition 2021 -O --crate-type cdylib -C target-cpu=x86-64-v2 -L "native=$made" -l static=nd_speed -o "$made/orders.so" "$here/orders.rs"
set -- "$made/orders.so" "$1"
if g++ -std=c++17 -O3 -DNDEBUG -march=x86-64-v2 -shared -fPIC -o "$made/xtensor.so" "$here/orders.cpp" 2> /dev/null; then
    set -- "$@" --xtensor "$made/xtensor.so"
fi
# numpy asks the kernel for huge pages for long blocks; so then does malloc.
export GLIBC_TUNABLES=glibc.malloc.hugetlb=1
export OMP_NUM_THREADS=1
library=$1 quick=$2
shift 2
if [ "$quick" = quick ]; then
    set -- "$@" --quick
else
    set -- "$@" --table "$here/orders.txt" --picture "$here/../docs/orders.svg"
fi
"${PYTHON:-/usr/bin/python3}" "$here/orders.py" "$library" "$@"
