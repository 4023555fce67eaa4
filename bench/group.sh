#!/usr/bin/env bash
# Makes operations of a group in one thread, each from its start to its end before the next, with 1 and with 60,000 in
# flight: operations that are reported, and operations whose time limits pass; prints the nanoseconds for an operation
# and the ratio, which is to be at most 3. The best of five runs of each counts.
. "$(dirname "$0")/prelude.sh"
build nio_bench_groups
for measure in group timed; do
    for _ in 1 2 3 4 5; do "$made/nio_bench_groups" "$measure"; done | awk '
        NR == 1 || $2 < one { one = $2 }
        NR == 1 || $3 < many { many = $3 }
        END { printf "%s: %d ns with 1 in flight, %d ns with 60,000, ratio %.2f\n", $1, one, many, many / one }'
done
machine
