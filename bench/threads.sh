#!/bin/sh
# Measures turns of eight threads and of two on a lock, questions to boards that grow, and an
# updater that drains such boards. Each line has what is measured, how many threads or entries,
# and the nanoseconds of each turn, question or entry: the median of nine runs, with the least and
# the most. The first call proves and builds the program.
set -eu
here=$(cd "$(dirname "$0")/.." && pwd)
crate="$here/crates/benches"
(cd "$crate" && rt run -- pair) >/dev/null
printf '%-8s %8s %12s %8s %8s\n' measure of nanoseconds least most
for measure in turns pair next session; do
    for _ in 1 2 3 4 5 6 7 8 9; do
        "$crate/out/benches" "$measure"
    done | sort -k2,2n -k3,3n | awk '{
        n = (FNR - 1) % 9
        if (n == 0) least = $3
        if (n == 4) median = $3
        if (n == 8) printf "%-8s %8d %12d %8d %8d\n", $1, $2, median, least, $3
    }'
done
