#!/usr/bin/env bash
# Runs scripts (docs/SCRIPTS.md) on the table from C, from Rust and from Java, over the static library, and compares
# their replies with those of `nio script`: `bench/interfaces.sh [SCRIPT.nio..]`, or `bench/interfaces.sh random COUNT
# [SEED]` for random scripts. Without a script it takes those of examples/. C is c/script.c, Rust is
# rust/examples/script, and Java is jvm/OnJvm.java on the provider of java/, which makes the calls of java.nio with real
# pipes and sockets.
#
# A script that lies beside its history is compared with that, which the test run compares with `nio script`; for
# another one NIO is run, ./nio script unless it is given. It writes how many lines each language answered; one ends
# early at a call that it can't make (pipes and groups have none in C; in Rust a caller that selects makes no other
# call; in Java what OnJvm.java lists). With one script it writes the replies too. Then it runs the JDK's own tests of
# selectors on the provider, where JDK_SOURCES names the JDK's sources (java/tests/jdk.sh).
#
# The static library is built where it isn't there (ARCHIVE names another one). A language without a compiler is left
# out, and that is said. It ends with status 1 where a reply differs or a test of the JDK's fails.
set -euo pipefail
cd "$(dirname "$0")/.."
CC=${CC:-cc}
NIO=${NIO:-./nio script}
KIT=${KIT:-$(dirname "$(dirname "$(readlink -f "$(command -v rt)")")")}
[ -f "$KIT/c/liblibc_c.a" ] || KIT=/opt/rattle
ARCHIVE=${ARCHIVE:-crates/nio_c/out/libnio_c.a}
[ -f "$ARCHIVE" ] || (cd crates/nio_c && rt lib)
work=$(mktemp -d)
trap 'rm -rf "$work"' EXIT
languages=() wrong=0

# missing LANGUAGE COMMAND: says so where there is no such command.
missing() {
    ! command -v "$2" >/dev/null || return 1
    echo "$1: left out, there is no $2 on the PATH"
}

# ---- what runs a script in each language: it reads a script and writes lines of a history, as far as it comes

C() {
    local status=0
    "$work/script" || status=$?
    [ $status = 0 ] || [ $status = 2 ] # a word for pipes or groups
}

Rust() {
    "$work/target/debug/examples/script"
}

Java() {
    java "@$work/java/nio.options" -cp "$work/jvm" OnJvm
}

if ! missing C "$CC"; then
    "$CC" -std=c11 -Wall -Wextra -Werror -O2 -Ic c/script.c "$ARCHIVE" "$KIT/c/liblibc_c.a" -pthread -o "$work/script"
    languages+=(C)
fi
if ! missing Rust cargo; then
    export CARGO_TARGET_DIR=$work/target
    NIO_C=$(realpath "$(dirname "$ARCHIVE")") KIT=$KIT cargo build -q --manifest-path rust/Cargo.toml --example script
    languages+=(Rust)
fi
if ! missing Java javac && ! missing Java gcc; then
    KIT=$KIT java/build.sh "$work/java" "$ARCHIVE" >"$work/built"
    javac -d "$work/jvm" jvm/OnJvm.java
    languages+=(Java)
fi

# ---- comparing

# compare SCRIPT HISTORY: each language's replies with the history.
compare() {
    local language lines total
    total=$(wc -l <"$2")
    echo -n "$(basename "$1" .nio), $total lines:"
    for language in "${languages[@]}"; do
        if ! $language <"$1" >"$work/said" 2>"$work/errors"; then
            echo " $language FAILED"
            cat "$work/errors"
            wrong=1
            return
        fi
        grep '^# ' "$work/said" | grep -v '^# stopped before' | sed "s/^#/$language:/" >>"$work/stops" || true
        grep ' is not for this program$' "$work/errors" | sed "s/^script/$language/" >>"$work/stops" || true
        grep -P '^\d+ .* -> .' "$work/said" >"$work/$language" || true
        lines=$(wc -l <"$work/$language")
        echo -n " $language $lines"
        if ! head -n "$lines" "$2" | cmp -s - "$work/$language"; then
            echo " DIFFERS (nio script, $language):"
            head -n "$lines" "$2" | diff - "$work/$language" || true
            wrong=1
            return
        fi
    done
    echo
}

: >"$work/stops"
if [ "${1-}" = random ]; then
    [ $# -ge 2 ] || { echo "usage: bench/interfaces.sh random COUNT [SEED]"; exit 2; }
    command -v javac >/dev/null || { echo "jvm/OnJvm.java makes the scripts, and there is no javac"; exit 2; }
    seed=${3-$RANDOM$RANDOM}
    echo "seed $seed"
    mkdir "$work/random"
    java "@$work/java/nio.options" -cp "$work/jvm" OnJvm "$2" "$seed" "$work/random"
    scripts=("$work"/random/*.nio)
elif [ $# -gt 0 ]; then
    scripts=("$@")
else
    scripts=(examples/*.nio)
fi
for script in "${scripts[@]}"; do
    history=${script%.nio}.history
    if [ "${1-}" = random ] || [ ! -f "$history" ]; then
        history=$work/history
        $NIO <"$script" >"$history"
    fi
    compare "$script" "$history"
done
[ ${#scripts[@]} != 1 ] || cat "$history"
if [ -s "$work/stops" ]; then
    echo "why a script ended early:"
    sort "$work/stops" | uniq -c | sort -rn
fi

# ---- the JDK's own tests

if [ -z "${JDK_SOURCES-}" ]; then
    echo "the JDK's tests: left out, JDK_SOURCES names no sources of the JDK (java/tests/jdk.sh says how to get them)"
elif [[ " ${languages[*]} " = *" Java "* ]]; then
    java/tests/jdk.sh "$JDK_SOURCES" "$work/java" | grep -v '^passed ' || wrong=1
fi
exit $wrong
