#!/usr/bin/env bash
# Registers 64 channels, registers them again, finds their keys and cancels them, 20,000 times in one thread. Then lets
# one of 1,024 channels come back a million times: it is opened, registered, its key cancelled, removed by a selection,
# and it is closed. Makes the same atomic operations at the same places in C; prints the nanoseconds for a call, or for
# a channel that comes back, and the ratios, which are to be at most 2. The best of five runs of each counts.
. "$(dirname "$0")/prelude.sh"
build nio_bench
compile channels_atomics
{
    least nio 5 "$made/nio_bench" channels
    least C 5 "$made/channels_atomics"
} | compare nio C
machine
