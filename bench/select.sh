#!/usr/bin/env bash
# Makes selections that don't wait in one thread, over 64 keys, over 1,000, and over 1,000 among 262,144 indexes that
# were ever claimed, with no key ready and with all ready, and the same atomic operations at the same places in C;
# prints the nanoseconds for a selection and the ratios, which are to be at most 1.2. The least of all selections counts.
# For one call, finding a key and setting its interest, or cancelling it, beside the same in C. Then, with nothing in C
# beside them, selections by the selector's list: over 64 keys, over 1,000 (with none ready at most 300 ns), and over
# 18,000 (at most 2,000 ns). Last, those calls in C without the touch of the key's index: it is to cost at most 12 ns.
. "$(dirname "$0")/prelude.sh"
build nio_bench
compile select_atomics
{
    least nio 5 "$made/nio_bench" select
    least C 5 "$made/select_atomics"
} >"$made/found"
compare nio C <"$made/found"
alone nio C <"$made/found"
alone C nio <"$made/found"
machine
