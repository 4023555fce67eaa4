#!/usr/bin/env bash
# How long `nio script` takes for 16 MiB of `t1 selector` lines and for half of them, beside `sed` over
# what it wrote, all in one run. The best of fifteen of each.
. "$(dirname "$0")/timing.sh"

lines=$((16777216 / 12))
yes 't1 selector' | head -n "$lines" >"$work/whole" || true
head -n $((lines / 2)) "$work/whole" >"$work/half"
compare_halves
