#!/usr/bin/env bash
# Passes a gibibyte through a direction, and copies it as often by memcpy in C; prints both times in nanoseconds and
# their ratio, which is to be at most 2. The best of five runs of each counts.
. "$(dirname "$0")/prelude.sh"
build nio_bench
compile relay_memcpy
{
    least nio 5 "$made/nio_bench" relay
    least C 5 "$made/relay_memcpy"
} | compare nio C
machine
