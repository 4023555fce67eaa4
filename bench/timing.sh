# What the benchmarks of the program share. Sourced first, in place of `set -eu`: stops at the first failure, goes to the
# top of the repository, builds the program where it must, sets `program`, and makes the folder `work`, which goes when
# the script ends.

set -eu
cd "$(dirname "$0")/.."
. bench/machine.sh
./nio script </dev/null >/dev/null
program=crates/nio_cli/out/nio_cli
work=$(mktemp -d)
trap 'rm -rf "$work"' EXIT

# best TIMES COMMAND..: the least of so many times, in milliseconds
best() {
    local times=$1 least=999999999 start end took
    shift
    for _ in $(seq "$times"); do
        start=$(date +%s%N)
        "$@"
        end=$(date +%s%N)
        took=$(((end - start) / 1000000))
        [ "$took" -ge "$least" ] || least=$took
    done
    echo "$least"
}

# busy TIMES COMMAND..: the least processor time of so many times, in milliseconds; the command writes nothing
busy() {
    local times=$1 least=999999999 took
    local TIMEFORMAT='%3U %3S'
    shift
    for _ in $(seq "$times"); do
        took=$({ time "$@"; } 2>&1 | awk '{ printf "%d", ($1 + $2) * 1000 }')
        [ "$took" -ge "$least" ] || least=$took
    done
    echo "$least"
}

# What is timed writes to /dev/null, so that the file system has no part in it.
whole() { "$program" script <"$work/whole" >/dev/null; }
half() { "$program" script <"$work/half" >/dev/null; }
stream() { sed 's/ -> /=/' "$work/history" >/dev/null; }

# compare_halves: runs the whole script, its half, and sed over the history of the whole
compare_halves() {
    local whole_ms half_ms sed_ms
    "$program" script <"$work/whole" >"$work/history"
    whole_ms=$(best 15 whole)
    half_ms=$(best 15 half)
    sed_ms=$(best 15 stream)
    echo "whole $whole_ms ms, half $half_ms ms, sed $sed_ms ms"
    awk -v w="$whole_ms" -v h="$half_ms" -v s="$sed_ms" \
        'BEGIN { printf "halves %.2f (asked: at most 2.2), to sed %.2f (asked: at most 10)\n", w / h, w / s }'
    machine
}
