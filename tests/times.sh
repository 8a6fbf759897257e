#!/bin/sh
# Times the calls of both builds: nanoseconds a call, the least of RUNS runs of each by turns.
set -eu
cd "$(dirname "$0")/.."
. tests/programs.sh

RUNS=${RUNS:-5}
sources='tests/times.c tests/timed.c tests/plain_sum.c tests/update.c tests/random.c'
make_archives
build_host times "$sources"
build_board times "$sources"

run=0
while [ "$run" -lt "$RUNS" ]; do
    "$host/times" | sed 's/^/x86-64\t/'
    "$board/times" | sed 's/^/IA-32\t/'
    run=$((run + 1))
done | awk -F '\t' -v march="$MARCH" '
    !($2 in known) { known[$2] = 1; names[++rows] = $2 }
    !(($1, $2) in least) || $3 < least[$1, $2] { least[$1, $2] = $3 }
    END {
        printf "%-48s %10s %10s %7s\n", "work", "x86-64", march, "ratio"
        for (row = 1; row <= rows; row++) {
            one = least["x86-64", names[row]]
            other = least["IA-32", names[row]]
            printf "%-48s %10.1f %10.1f %7.2f\n", names[row], one, other, other / one
        }
    }'
