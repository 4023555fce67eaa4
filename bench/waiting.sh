#!/usr/bin/env bash
# Wakes a selector and selects there without waiting, a million times; selects without waiting over 1,000 keys with none
# ready; and does the same on the selectors of Java, whose calls ask the system each time. Then a caller sleeps in
# 10,000 selections, each ended by a wakeup in another thread, and a thread parks as often on a `Parker`: prints the
# medians of the time from the wakeup until the sleeper has returned, whose ratio is to be at most 1.5. The best of
# three runs of each counts.
. "$(dirname "$0")/prelude.sh"
build nio_bench
javac -d "$made" Waiting.java
{
    least nio 3 "$made/nio_bench" waiting
    least Java 3 java -cp "$made" Waiting
} >"$made/times"
compare nio Java <"$made/times"
awk -F'|' '
    { found[$2] = $3 }
    END { printf "sleeper: %d ns, %d ns by Parker alone, ratio %.2f\n", found["select"], found["park"], found["select"] / found["park"] }
' "$made/times"
machine
