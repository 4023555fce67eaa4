#!/usr/bin/env bash
# Round trips of one byte over 1 and over 64 connections of `nio proxy`, beside none, 1,000 and 9,000 that are idle, by
# one selector (`--way select`) and by an accepting and four working ones (`--way many`). Prints the round trips a second
# and the processor time of one; over one connection by one selector there are to be at least 0.9 of those beside none
# where 1,000 are idle, and 0.8 where 9,000 are. The ways run in turn, three times, and the best of each counts. `bench/idle.sh COMMAND..` measures another relay beside them:
# in its words {listen} and {target} stand for addresses, {lport} and {tport} for ports, {conns} for the number of
# connections.
. "$(dirname "$0")/timing.sh"
gcc -O2 -Wall -o "$work/idle" bench/idle.c
proxy=("$program" proxy --listen {listen} --target {target} --conns {conns} --way)

# measured WHO IDLE ACTIVE COMMAND..: adds a line `WHO IDLE ACTIVE TRIPS CPU` to "$work/rows"
measured() {
    local who=$1 idle=$2 active=$3
    shift 3
    timeout 60 "$work/idle" "$idle" "$active" 2 "$@" >"$work/line" || { cat "$work/line"; exit 1; }
    awk -v row="$who $idle $active" '{ print row, $2 * 1e9 / $4, $6 / ($2 ? $2 : 1) }' "$work/line" >>"$work/rows"
}

for _ in {1..3}; do
    for idle in 0 1000 9000; do
        for active in 1 64; do
            measured select "$idle" "$active" "${proxy[@]}" select
            measured many "$idle" "$active" "${proxy[@]}" many
            [ $# = 0 ] || measured other "$idle" "$active" "$@"
        done
    done
done
awk '
    {
        row = $3 " active beside " $2 " idle"
        if (!(row in seen)) { seen[row] = 1; order[++count] = row }
        if ($4 > rate[$1, row]) { rate[$1, row] = $4; cpu[$1, row] = $5 }
    }
    function tell(who, row) { return sprintf("%s %d a second, %.1f us each", who, rate[who, row], cpu[who, row] / 1000) }
    END {
        for (k = 1; k <= count; k++) {
            row = order[k]
            printf "%s: %s; %s, ratio %.2f", row, tell("select", row), tell("many", row),
                rate["many", row] / rate["select", row]
            if (("other", row) in rate) printf "; %s", tell("other", row)
            printf "\n"
        }
    }' "$work/rows"
machine
