#!/usr/bin/env bash
# Passes packets of 64 and of 1,400 bytes over loopback through `nio packets` and through a relay in C over epoll, with
# 1 and with 32 in flight: each goes to the target and comes back. Prints how many came back in a second, the processor
# time of the relay for one of them, and the ratios; that of packets a second is to be at least 0.9. The two run in
# turn, fifteen times, and the best of each counts. `bench/packets.sh COMMAND..` takes another relay than `nio packets`.
. "$(dirname "$0")/timing.sh"
gcc -O2 -Wall -o "$work/packets" bench/packets.c
gcc -O2 -Wall -o "$work/load" bench/packets_load.c
ours=("$program" packets --listen 127.0.0.1:{listen} --local 127.0.0.1:{local} --target 127.0.0.1:{target}
    --count {count})
[ $# = 0 ] || ours=("$@")
COUNT=20000

# measured WHO SIZE WINDOW COMMAND..: adds a line `WHO SIZE WINDOW RATE CPU LOST` to "$work/rows"
measured() {
    local who=$1 size=$2 window=$3
    shift 3
    timeout 60 "$work/load" "$size" "$window" "$COUNT" "$@" >"$work/line" || { cat "$work/line"; exit 1; }
    awk -v row="$who $size $window" '{ print row, $2 * 1e9 / $6, $8 / $2, $4 }' "$work/line" >>"$work/rows"
}

for _ in $(seq 15); do
    for window in 1 32; do
        for size in 64 1400; do
            measured nio "$size" "$window" "${ours[@]}"
            measured C "$size" "$window" "$work/packets" {listen} {local} {target} {count}
        done
    done
done
awk '
    {
        row = $2 " bytes, " $3 " in flight"
        if ($1 == "C" && !(row in seen)) { seen[row] = 1; order[++count] = row }
        if ($4 > rate[$1, row]) rate[$1, row] = $4
        if (!(($1, row) in cpu) || $5 < cpu[$1, row]) cpu[$1, row] = $5
        lost[row] += $6
    }
    END {
        for (k = 1; k <= count; k++) {
            row = order[k]
            printf "%s: %d a second, %d in C, ratio %.2f;", row, rate["nio", row], rate["C", row],
                rate["nio", row] / rate["C", row]
            printf " processor time %.2f us, %.2f us in C, ratio %.2f; %d lost\n", cpu["nio", row] / 1000,
                cpu["C", row] / 1000, cpu["nio", row] / cpu["C", row], lost[row]
        }
    }' "$work/rows"
machine
