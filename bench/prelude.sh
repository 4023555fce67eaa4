# What the benchmarks of nio_bench and nio_bench_groups share. Sourced first, in place of `set -euo pipefail`: stops at
# the first failure, goes to this folder, makes the folder "$made", and takes it away at the end.
#
# A measured program writes lines of names and numbers, as `few idle 521 ready 1310`: each number belongs to the name
# before it, and a name before another name goes with each of the line. A number named `calls` is how many calls the
# line's later numbers are for; else they are for one.

set -euo pipefail
cd "$(dirname "$0")"
. ./machine.sh
made=$(mktemp -d)
trap 'rm -rf "$made"' EXIT

# build NAME: proves and builds the program NAME as "$made/NAME"
build() {
    (cd "../crates/$1" && rt run) >"$made/log" 2>&1 || { cat "$made/log"; exit 1; }
    cp "../crates/$1/out/$1" "$made/$1"
}

# compile NAME: builds NAME.c as "$made/NAME"
compile() { gcc -O2 -Wall -pthread -o "$made/$1" "$1.c"; }

# least WHO TIMES COMMAND..: runs the command so many times, and writes for each name, in the order in which it came
# first, `WHO|NAME|NUMBER` with its least number for one call
least() {
    local who=$1 times=$2
    shift 2
    for _ in $(seq "$times"); do "$@" 2>/dev/null; done | awk -v who="$who" '
        {
            load = ""; calls = 1
            for (i = 1; i < NF; i++) {
                if ($(i + 1) !~ /^[0-9]+$/) { load = load $i " "; continue }
                name = load $i; number = $(i + 1); i++
                if (name == "calls") { calls = number; continue }
                number /= calls
                if (!(name in least)) { order[++count] = name; least[name] = number }
                if (number < least[name]) least[name] = number
            }
        }
        END { for (k = 1; k <= count; k++) printf "%s|%s|%.3f\n", who, order[k], least[order[k]] }'
}

# compare OURS OTHER: of such lines, writes for each name both numbers of nanoseconds and the ratio
compare() {
    awk -F'|' -v ours="$1" -v other="$2" '
        $1 == ours { order[++count] = $2 }
        { found[$1, $2] = $3 }
        END {
            for (k = 1; k <= count; k++) {
                name = order[k]
                if (!((other, name) in found)) continue
                printf "%s: %.1f ns, %.1f ns in %s, ratio %.2f\n", name, found[ours, name], found[other, name], other, \
                    found[ours, name] / found[other, name]
            }
        }'
}

# alone OURS OTHER: of such lines, writes our number of nanoseconds for each name that the other hasn't
alone() {
    awk -F'|' -v ours="$1" -v other="$2" '
        $1 == ours { order[++count] = $2; number[$2] = $3 }
        $1 == other { compared[$2] = 1 }
        END { for (k = 1; k <= count; k++) if (!(order[k] in compared)) printf "%s: %.1f ns\n", order[k], number[order[k]] }'
}
