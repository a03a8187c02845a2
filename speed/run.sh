#!/bin/sh
# Builds the library of timed calls and its driver, and prints a table of nanoseconds a call beside numpy's.
#
#     speed/run.sh [LABEL=LIBRARY ..]
#
# Each LIBRARY is a libnd_speed.a of another tree (its speed/library.sh makes one), timed in the same run.
# Wants rt, rustc, and a python3 with numpy: PYTHON names another than /usr/bin/python3.
set -e
here=$(cd "$(dirname "$0")" && pwd)
made=$(mktemp -d)
trap 'rm -rf "$made"' EXIT

"$here/library.sh" "$made"

programs=
for given in "$@" "here=$made/libnd_speed.a"; do
    label=${given%%=*}
    mkdir "$made/$label"
    cp "${given#*=}" "$made/$label/libnd_speed.a"
    rustc -O -C target-cpu=x86-64-v2 -L "native=$made/$label" -l static=nd_speed -o "$made/$label/driver" "$here/driver.rs"
    programs="$programs $label=$made/$label/driver"
done
exec "${PYTHON:-/usr/bin/python3}" "$here/table.py" $programs
