#!/usr/bin/env bash
# Refuses each allocation of the program in turn, for each of the inputs below: once alone, and once with all after it.
# The proxy runs over loopback, and over a net in memory (the program nio_memory_proxy). `packets` runs over loopback.
# For each input it writes how many allocations a run makes, how many runs there were, how they ended, and how many
# seconds it took. A run is wrong where its status is neither the input's nor 6 (want of memory), where what it wrote
# isn't a beginning of the input's output (at 6 of a race: where it wrote anything), where it wrote to standard error, or
# where it didn't end. Of an input with more than 4,000 allocations each of the first 2,000 is refused, then every 20th
# and the last, and its line says so.
#
# `bench/refusals.sh WORD` tries only the inputs whose name has that word: `proxy`, say, or `--way many`. The names stand at
# the beginning of the lines that it writes. With NIO=PROGRAM and NIO_IN_MEMORY=PROGRAM these programs are tried, and none
# is built. It needs gcc and python3, and for each input a minute or more.
set -euo pipefail
only=${1-}
case "$only" in
-h | --help)
    sed -n '2,/^set/s/^# \{0,1\}//p' "$0"
    exit
    ;;
esac
program=${NIO:+$(realpath "$NIO")}
in_memory=${NIO_IN_MEMORY:+$(realpath "$NIO_IN_MEMORY")}
cd "$(dirname "$0")/.."
addresses=(--listen 127.0.0.1:8080 --target 127.0.0.1:80)
ways=(select "group --workers 2" future "many --workers 2")
if [ -z "$program" ]; then
    ./nio script </dev/null >/dev/null
    program=$PWD/crates/nio_cli/out/nio_cli
fi
work=$(mktemp -d)
trap 'rm -rf "$work"; kill $(jobs -p) 2>/dev/null || true' EXIT
if [ -z "$in_memory" ]; then
    if ! (cd crates/nio_memory_proxy && rt run -- proxy --way select "${addresses[@]}" --conns 2) </dev/null \
        >"$work/said" 2>&1; then
        cat "$work/said" >&2
        exit 1
    fi
    in_memory=$PWD/crates/nio_memory_proxy/out/nio_memory_proxy
fi
gcc -O2 -Wall -shared -fPIC -o "$work/refuse.so" bench/refuse.c -ldl
wrong=0 runs=0

# refused AT ON INPUT COMMAND..: a run in which allocation AT fails, and each one after it where ON is 1
refused() {
    local at=$1 on=$2 input=$3
    shift 3
    local set=(LD_PRELOAD="$work/refuse.so" REFUSE_AT="$at" REFUSE_COUNT="$work/count")
    [ "$on" = 0 ] || set+=(REFUSE_ON=1)
    rm -f "$work/count"
    timeout 20 env "${set[@]}" "$@" <"$input" >"$work/out" 2>"$work/err"
}

# begins: whether what the run wrote is a beginning of one of the outputs of the input
begins() {
    local output size
    size=$(stat -c %s "$work/out")
    for output in "$work"/right.*; do
        ! cmp -s -n "$size" "$work/out" "$output" || [ "$(stat -c %s "$output")" -lt "$size" ] || return 0
    done
    return 1
}

# judge NAME AT ON STATUS WANTED IS_RACE: says what is wrong with a run
judge() {
    local why=
    [ "$4" = "$5" ] || [ "$4" = 6 ] || why="status $4"
    begins || why="$why output"
    [ "$4" != 6 ] || [ "$6" = 0 ] || [ ! -s "$work/out" ] || why="$why output at want of memory"
    [ ! -s "$work/err" ] || why="$why standard error"
    runs=$((runs + 1))
    [ -n "$why" ] || return 0
    wrong=$((wrong + 1))
    echo "WRONG: $1, allocation $2$([ "$3" = 0 ] || echo ' and all after it'): $why"
}

# Of an input with more than MANY allocations each of the first FIRST is refused, then every STEPth and the last.
MANY=4000 FIRST=2000 STEP=20

# next_of AT COUNT: which of so many allocations is refused after this one
next_of() {
    local at=$(($1 + 1))
    [ "$2" -le "$MANY" ] || [ "$1" -lt "$FIRST" ] || at=$(($1 + STEP))
    echo $((at < $2 ? at : $2))
}

# counted: how many allocations the run made, 0 where it was ended
counted() { cat "$work/count" 2>/dev/null || echo 0; }

# run AT ON: a run of the input that `each` tries
run() {
    before_run
    refused "$1" "$2" "$input" "${command[@]}" && status=0 || status=$?
    after_run
    judge "$name" "$1" "$2" "$status" "$wanted" "$is_race"
}

# each NAME WANTED IS_RACE INPUT COMMAND..: the input's outputs stand in "$work"/right.*. How many allocations there are is
# the most that one of five runs makes.
each() {
    local name=$1 wanted=$2 is_race=$3 input=$4 command=("${@:5}")
    local at=0 on status count=0 more lacked=0 before=$runs began=$SECONDS sample=
    case "$name" in *"$only"*) ;; *) return 0 ;; esac
    for _ in 1 2 3 4 5; do
        run 0 0
        more=$(counted)
        count=$((more > count ? more : count))
    done
    if [ "$count" = 0 ]; then
        wrong=$((wrong + 1))
        echo "WRONG: $name: none of its allocations was counted"
        return
    fi
    [ "$count" -le "$MANY" ] || sample=", of which each of the first $FIRST, every ${STEP}th after and the last was refused"
    while [ "$at" -lt "$count" ]; do
        at=$(next_of "$at" "$count")
        for on in 0 1; do
            run "$at" "$on"
            [ "$status" != 6 ] || lacked=$((lacked + 1))
        done
    done
    echo "$name: $count allocations$sample, $((runs - before)) runs, want of memory in $lacked, $((SECONDS - began)) s"
}
before_run() { :; }
after_run() { :; }

# right FILE..: the outputs that are right
right() {
    rm -f "$work"/right.*
    local number=0 file
    for file in "$@"; do
        number=$((number + 1))
        cp "$file" "$work/right.$number"
    done
}

for name in one_selection cancelling_while_selecting shutting_a_group_down accepting_in_a_group pipe_bytes broken_pipe \
    cancelling; do
    right "examples/$name.history"
    each "script $name" 0 0 "examples/$name.nio" "$program" script
done
echo "legal 6" >"$work/legal"
right "$work/legal"
each "check one_selection" 0 0 examples/one_selection.history "$program" check
each "check-1 one_selection" 0 0 examples/one_selection.history "$program" check-1
for name in block_and_wakeup pipe_between_threads; do
    right crates/nio_races/data/"$name".out*
    each "race $name" 0 1 "crates/nio_races/data/$name.race" "$program" race
done
printf '%s\n' 't1 selector' 't1 channel source' 't1 blocking c0 off' 't1 register s0 c0 1' go 't1 begin s0 now' \
    't2 wakeup s0' >"$work/beside.race"
printf '%s\n' '1 t1 selector -> s0' '2 t1 channel source -> c0' '3 t1 blocking c0 off -> ok' \
    '4 t1 register s0 c0 1 -> k0' 't1 1 begin s0 now -> looked k0:1' 't2 1 wakeup s0 -> ok' >"$work/beside"
right "$work/beside"
each "race beside" 0 1 "$work/beside.race" "$program" race
right examples/timing_out.out
each "timed timing_out" 0 0 examples/timing_out.timed "$program" timed
printf 'lines 222\nselections 9\nupdates 9\n' >"$work/load"
right "$work/load"
each "load 9" 0 0 /dev/null "$program" load 9

# The proxy over a net in memory: two connections, of which the first fails once its target has taken ten bytes. The
# other may fail for want of memory.
for faults in 1 2; do echo "served 2 faults $faults" >"$work/served.$faults"; done
right "$work"/served.*
for way in "${ways[@]}"; do
    read -ra words <<<"$way"
    each "proxy in memory --way $way" 0 0 /dev/null "$in_memory" proxy --way "${words[@]}" "${addresses[@]}" --conns 2
done

# open_port KIND PORT: waits until somebody listens at this port of tcp, or is bound to this one of udp
open_port() {
    local number
    number=$(printf %04X "$2")
    until grep -q ":$number 00000000:0000" "/proc/net/$1"; do sleep 0.01; done
}

# The proxy over loopback: a target that answers what it is sent, and two clients for each run. A connection that fails
# for want of memory counts as faulty, so the outputs are those of two connections of which some failed.
for faults in 0 1 2; do echo "served 2 faults $faults" >"$work/served.$faults"; done
right "$work"/served.*
port=$((20000 + RANDOM % 20000))
python3 bench/loopback.py target "$port" &
open_port tcp "$port"
before_run() { python3 -IS bench/loopback.py clients $((port + 1)) & clients=$!; }
# a process that hasn't begun its command yet is still this shell, which has a trap: it is killed after that
after_run() {
    while [ "$(cat "/proc/$clients/comm" 2>/dev/null)" = "$(cat "/proc/$$/comm")" ]; do sleep 0.001; done
    kill "$clients" 2>/dev/null || true
    wait "$clients" 2>/dev/null || true
}
for way in "${ways[@]}"; do
    read -ra words <<<"$way"
    each "proxy --way $way" 0 0 /dev/null "$program" proxy --way "${words[@]}" --listen "127.0.0.1:$((port + 1))" \
        --target "127.0.0.1:$port" --conns 2
done

# The relay of packets over loopback: a client that goes on sending, and a target that answers. How many answers come
# back before the third packet is sent on isn't said.
before_run() { :; }
after_run() { :; }
for back in 0 1 2 3; do echo "forth 3 back $back" >"$work/relayed.$back"; done
right "$work"/relayed.*
python3 bench/loopback.py answers $((port + 2)) &
open_port udp $((port + 2))
python3 bench/loopback.py packets $((port + 3)) &
each "packets" 0 0 /dev/null "$program" packets --listen "127.0.0.1:$((port + 3))" --local "127.0.0.1:$((port + 4))" \
    --target "127.0.0.1:$((port + 2))" --count 3

echo "$runs runs, $wrong wrong"
[ "$runs" != 0 ] || echo "no input's name has '$only'"
[ "$runs" != 0 ] && [ "$wrong" = 0 ]
