#!/bin/sh
# Builds the library of timed calls, and prints a table of nanoseconds a call over square arrays of 3 x 3 to 32 x 32, beside plain
# loops in Rust, all in one run.
#
#     speed/small.sh [--instructions] [FOLDER]
#
# With --instructions the table has instructions in place of nanoseconds; it then wants valgrind. With a FOLDER that library.sh has left
# libnd_speed.a in, it builds no library. Wants rt, rustc and a python3.
set -e
here=$(cd "$(dirname "$0")" && pwd)
made=$(mktemp -d)
trap 'rm -rf "$made"' EXIT

count=
if [ "$1" = --instructions ]; then
    count=$1
    shift
fi
library=${1:-$made}
[ -n "$1" ] || "$here/library.sh" "$made"
rustc -O -C target-cpu=x86-64-v2 -L "native=$library" -l static=nd_speed -o "$made/driver" "$here/elements.rs"
"${PYTHON:-/usr/bin/python3}" "$here/small.py" $count "$made/driver" small
