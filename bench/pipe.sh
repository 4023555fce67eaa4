#!/usr/bin/env bash
# Passes 256 mebibytes from one thread to another in pieces of 64, 4,096 and 65,536 bytes, through the two ends of a
# pipe of nio, through a ring of the same size alone, and through a pipe of the system in C; prints megabytes a second
# and the ratios. In pieces of 4,096 a pipe is to carry at least 3 times what the system's does, and at least half of
# what the ring does. The best of three runs of each counts.
. "$(dirname "$0")/prelude.sh"
build nio_bench
compile pipe_system
{
    least nio 3 "$made/nio_bench" pipe
    least C 3 "$made/pipe_system"
} | awk -F'|' '
    function speed(name) { return 268435456000 / took[name] }
    { took[$2] = $3 }
    END {
        count = split("64 4096 65536", pieces, " ")
        for (k = 1; k <= count; k++) {
            piece = pieces[k]
            own = speed("nio_" piece); ring = speed("rtrb_" piece); kernel = speed("system_" piece)
            printf "pieces of %d: %d MB/s; ring alone %d MB/s, ratio %.2f; pipe(2) %d MB/s, ratio %.2f\n", \
                piece, own, ring, own / ring, kernel, own / kernel
        }
    }'
machine
