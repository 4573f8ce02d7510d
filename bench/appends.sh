#!/bin/sh
# Appends blocks of 50 bytes to a disk in memory, with a sync after each, and prints the seconds
# that each count of blocks takes. The first call proves and builds the program.
set -eu
here=$(cd "$(dirname "$0")/.." && pwd)
crate="$here/crates/benches"
(cd "$crate" && rt run -- appends 1) >/dev/null
for count in 10000 100000 1000000; do
    from=$(date +%s.%N)
    "$crate/out/benches" appends "$count"
    to=$(date +%s.%N)
    echo "$from $to" | awk '{ printf "%.3f seconds\n", $2 - $1 }'
done
