#!/usr/bin/env bash
# Makes ten million steps of three kinds on the shared table in one thread, and the same atomic operations at the same
# places in C; prints the nanoseconds for a step and the ratios, which are to be at most 1.5 for wake and
# swap_interest. The best of five runs of each counts.
. "$(dirname "$0")/prelude.sh"
build nio_bench
compile words_atomics
{
    least nio 5 "$made/nio_bench" words
    least C 5 "$made/words_atomics"
} | compare nio C
machine
