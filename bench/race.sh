#!/usr/bin/env bash
# How long `nio race` takes where 2 and 4 callers make 100,000 lines each, every caller on a selector of its own, beside
# one caller that makes as many lines in all. Prints lines a second and the ratio to the one caller, of selections that
# don't wait, with a wakeup before each and without. A wakeup rings the bell of every caller, so with it the callers
# share memory. The best of five of each. One thread reads the text and writes the replies, and that counts too: so the
# ratio stays below the number of callers.
. "$(dirname "$0")/timing.sh"

each=100000

# race_text CALLERS LINES FIRST: so many callers in turn, so many lines each. A caller's lines are, over and over,
# numbers FIRST to 3 of these: `wakeup`, `begin`, `told`.
race_text() {
    awk -v callers="$1" -v lines="$2" -v first="$3" 'BEGIN {
        words[1] = "wakeup s%d"; words[2] = "begin s%d now"; words[3] = "told s%d"
        for (n = 1; n <= callers; n++) printf "t%d selector\n", n
        print "go"
        for (made = 0; made < lines; made++) {
            word = words[first + made % (4 - first)]
            for (n = 1; n <= callers; n++) printf "t%d " word "\n", n, n - 1
        }
    }'
}

many() { "$program" race <"$work/many" >/dev/null; }
one() { "$program" race <"$work/one" >/dev/null; }

# measure NAME CALLERS FIRST
measure() {
    local total=$(($2 * each)) many_ms one_ms
    race_text "$2" "$each" "$3" >"$work/many"
    race_text 1 "$total" "$3" >"$work/one"
    many_ms=$(best 5 many)
    one_ms=$(best 5 one)
    awk -v name="$1" -v callers="$2" -v total="$total" -v many="$many_ms" -v one="$one_ms" 'BEGIN {
        printf "%s, %d callers: %d lines a second, one caller %d, ratio %.2f\n", \
            name, callers, total * 1000 / many, total * 1000 / one, one / many
    }'
}

for callers in 2 4; do
    measure "selections" "$callers" 2
    measure "selections after wakeups" "$callers" 1
done
machine
