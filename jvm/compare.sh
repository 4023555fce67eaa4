#!/usr/bin/env bash
# Runs random scripts on the selectors of this machine's JVM and checks each history with ./nio check:
# `jvm/compare.sh COUNT [SEED]`. It writes the seed that it takes, how far the scripts went, why they stopped (a known
# difference, or a line that a JVM can't be made to answer: docs/RULES.md has them all), and the first history in which
# the JVM answered otherwise. Needs a JDK from 17 on.
set -euo pipefail
cd "$(dirname "$0")"
[ $# -ge 1 ] || { echo "usage: jvm/compare.sh COUNT [SEED]"; exit 2; }
if ! command -v javac >/dev/null; then
    echo "compare.sh needs a JDK from 17 on (javac, java), and there is none on the PATH"
    exit 2
fi
count=$1 seed=${2-$RANDOM$RANDOM}
echo "seed $seed"
../nio script </dev/null >/dev/null
work=$(mktemp -d)
trap 'rm -rf "$work"' EXIT
mkdir "$work/made" "$work/runs"
javac -d "$work/made" OnJvm.java
java -cp "$work/made" OnJvm "$count" "$seed" "$work/runs"

lines=0 wrong=0
for history in "$work"/runs/*.history; do
    lines=$((lines + $(grep -vc '^#' "$history" || true)))
    if ! said=$(../nio check <"$history"); then
        wrong=$((wrong + 1))
        if [ "$wrong" = 1 ]; then
            kept=$(mktemp -t nio-jvm-XXXXXX)
            cp "$history" "$kept"
            echo "the JVM answers otherwise: $said, in $kept"
        fi
    fi
done
echo "$count scripts, $lines lines answered by the JVM, $wrong scripts with another answer; why scripts stopped:"
grep -h '^# ' "$work"/runs/*.history | grep -v '^# stopped before' | sort | uniq -c | sort -rn || true
[ "$wrong" = 0 ]
