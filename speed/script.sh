#!/bin/sh
# Runs the script program beside two of plain Rust, on a script of a million elements and 200,000 lines, from a pipe into a
# pipe: the texts must be the same, and it prints the processor time (the least of fifteen runs, in turns), the most memory
# and the instructions of each. One of plain Rust runs each line as it reads it (as_read); the other reads all lines before
# the first call runs (first_read), as the program must, since a bad line is told alone.
#
#     speed/script.sh [LABEL=PROGRAM ..]
#
# Each PROGRAM is an nd_script of another tree (its out/nd_script), run beside the others.
# Wants rt, rustc, python3, and perf or valgrind for the instructions.
set -e
here=$(cd "$(dirname "$0")" && pwd)
made=$(mktemp -d)
trap 'rm -rf "$made"' EXIT

(cd "$here/../crates/nd_script" && rt run < stdin > "$made/log" 2>&1) || { tail -20 "$made/log"; exit 1; }
for each in as_read first_read; do
    rustc -O --edition 2021 -C target-cpu=x86-64-v2 -o "$made/$each" "$here/script_$each.rs"
done
python3 "$here/script.py" > "$made/input"

set -- "as_read=$made/as_read" "first_read=$made/first_read" "$@" "here=$here/../crates/nd_script/out/nd_script"
for given in "$@"; do
    cat "$made/input" | "${given#*=}" | cat > "$made/${given%%=*}.text"
    cmp "$made/as_read.text" "$made/${given%%=*}.text"
done
for run in 1 2 3 4 5 6 7 8 9 10 11 12 13 14 15; do
    for given in "$@"; do
        cat "$made/input" | ( TIMEFORMAT='%U %S'; export TIMEFORMAT; bash -c 'time "$0"' "${given#*=}" 2> "$made/time" ) | cat > /dev/null
        awk '{ print $1 + $2 }' "$made/time" >> "$made/${given%%=*}.times"
    done
done
for given in "$@"; do
    label=${given%%=*} program=${given#*=}
    least=$(sort -n "$made/$label.times" | head -1)
    most=$(python3 -c 'import resource, subprocess, sys
subprocess.run(sys.argv[1], stdin=open(sys.argv[2]), stdout=subprocess.DEVNULL)
print(resource.getrusage(resource.RUSAGE_CHILDREN).ru_maxrss // 1000)' "$program" "$made/input")
    count=$(perf stat -x , -e instructions:u "$program" < "$made/input" 2>&1 > /dev/null | awk -F , '/^[0-9]+,.*instructions/ { print $1 }')
    if [ -z "$count" ]; then
        count=$(valgrind --tool=callgrind --callgrind-out-file=/dev/null "$program" < "$made/input" 2>&1 > /dev/null | awk '/refs:/ { gsub(",", ""); print $NF }')
    fi
    echo "$label: $least s, $most MB, $count instructions"
done
