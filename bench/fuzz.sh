#!/usr/bin/env bash
# Gives random bytes and changed examples to each command for so many seconds: `bench/fuzz.sh SECONDS [SEED]`. It writes
# the seed that it takes. A run is wrong where its status isn't one of the command's, where it writes to standard error,
# where it doesn't end within ten seconds, where `check` doesn't find legal what `script` wrote, or where a proxy or a relay
# of packets over loopback carries other bytes than it was sent. The input of a wrong run is kept as a file in TMPDIR or
# /tmp; the last lines have its words, and name the file. With NIO=PROGRAM that program is tried, and none is built. It
# needs python3.
set -euo pipefail
[[ ${1-} =~ ^[0-9]+$ && ${2-0} =~ ^[0-9]+$ ]] || { echo "usage: bench/fuzz.sh SECONDS [SEED]" >&2; exit 2; }
NIO=${NIO:+$(realpath "$NIO")}
export NIO
cd "$(dirname "$0")/.."
[ -n "$NIO" ] || ./nio script </dev/null >/dev/null
exec python3 -B bench/fuzz.py "$@"
