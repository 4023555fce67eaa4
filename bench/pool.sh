#!/usr/bin/env bash
# Starts 1,048,576 operations in one thread, which 1, 2 and 4 workers in others handle by a handler that does nothing,
# and does the same in C over a mutex, a ring and condition variables. The two run in turn, nine times each; prints the
# operations a second and the ratios, by the best runs and by the medians. By the best they are to be at least 0.7.
. "$(dirname "$0")/prelude.sh"
build nio_bench_groups
compile pool
for _ in {1..9}; do
    least nio 1 "$made/nio_bench_groups" pool
    least C 1 "$made/pool"
done | sort -t'|' -k1,1 -k2,2 -k3,3n | awk -F'|' '
    $1 == "nio" && !(($1, $2) in runs) { order[++count] = $2 }
    { found[$1, $2, ++runs[$1, $2]] = $3 }
    function tell(name, how, run) {
        printf "%s, %s: %d operations a second, %d in C, ratio %.2f\n", name, how, 1e9 / found["nio", name, run], \
            1e9 / found["C", name, run], found["C", name, run] / found["nio", name, run]
    }
    END {
        for (k = 1; k <= count; k++) {
            tell(order[k], "best", 1)
            tell(order[k], "median", 5)
        }
    }'
machine
