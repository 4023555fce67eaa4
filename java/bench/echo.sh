#!/usr/bin/env bash
# Times an echo server on the JDK's selectors and on nio's, in turns: `java/bench/echo.sh DIR [BUSY] [IDLE] [SECONDS]
# [ROUNDS]`. DIR is what java/build.sh built. It writes a line for each, the JDK's first: the round trips in a second of
# the best of ROUNDS rounds, of SECONDS each, and the server's processor time for one; and a line of the ratios. The
# client is on the JDK's. SERVER and CLIENT are put before their commands, as `taskset -c 2`. OTHER names another folder
# that java/build.sh built, to be timed too.
set -euo pipefail
[ $# -ge 1 ] || { echo "usage: java/bench/echo.sh DIR [BUSY] [IDLE] [SECONDS] [ROUNDS]"; exit 2; }
here=$(cd "$(dirname "${BASH_SOURCE[0]}")" && pwd)
options=@$(cd "$1" && pwd)/nio.options
busy=${2:-100} idle=${3:-0} seconds=${4:-0.5} rounds=${5:-20}
work=$(mktemp -d)
servers=()
trap 'kill "${servers[@]}" 2>/dev/null || true; rm -rf "$work"' EXIT
javac -d "$work" "$here/EchoLoad.java" "$here/../examples/EchoServer.java"

# Starts a server with these options: its port and its process come to the words for the client.
words=()
serve() {
    local port said=$work/said-${#servers[@]}
    : >"$said"
    ${SERVER-} java "$@" -cp "$work" EchoServer >"$said" &
    servers+=($!)
    until port=$(grep -oP 'port \K\d+(?=,)' "$said"); do sleep 0.1; done
    words+=("$port" $!)
}

serve -Xshare:auto
serve "$options"
[ -z "${OTHER-}" ] || serve "@$OTHER/nio.options"
${CLIENT-} java -cp "$work" EchoLoad "$busy" "$idle" "$seconds" "$rounds" "${words[@]}"
