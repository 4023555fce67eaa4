#!/usr/bin/env bash
# How long `nio load`, which runs in one thread, takes for 100,000 rounds and for half of them. The best of fifteen of
# each. The ratio is of processor time, so that what else the machine does has less part in it.
. "$(dirname "$0")/timing.sh"

whole_load() { "$program" load 100000 >/dev/null; }
half_load() { "$program" load 50000 >/dev/null; }

echo "whole $(best 15 whole_load) ms (asked: at most 2000)"
whole_ms=$(busy 15 whole_load)
half_ms=$(busy 15 half_load)
awk -v w="$whole_ms" -v h="$half_ms" \
    'BEGIN { printf "processor time %d ms, half %d ms, halves %.2f (asked: at most 2.2)\n", w, h, w / h }'
machine
