#!/usr/bin/env bash
# How long `nio script` takes for 300,000 lines of selections over 64 keys and for their first half,
# beside `sed` over the history, all in one run. The best of fifteen of each.
. "$(dirname "$0")/timing.sh"

{
    echo 't1 selector'
    for j in $(seq 0 63); do
        echo "t1 channel source"
        echo "t1 blocking c$j off"
        echo "t1 register s0 c$j 1"
    done
    awk 'BEGIN {
        for (r = 0; ; r++) {
            key = (r * 37) % 64
            print "t1 begin s0 now"
            print "t1 told s0 k" key ":1"
            print "t1 unselect s0 k" key
        }
    }' 2>/dev/null
} | head -n 300000 >"$work/whole" || true
head -n 150000 "$work/whole" >"$work/half"
compare_halves
