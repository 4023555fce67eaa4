#!/usr/bin/env bash
# Runs HTTP servers of Netty and of Jetty on the JDK's selectors and on nio's, and checks each answer:
# `java/tests/servers.sh DIR [COUNT] [CONNECTIONS]`. DIR is what java/build.sh built. COUNT requests, 100,000 unless it
# is given, come over CONNECTIONS connections at a time, 64, which are closed and made again; a few answers are of
# 2.4 MB, which no socket takes at once. It writes a line for each server and ends with status 1 where an answer is
# wrong or lost. JAR is the folder of Netty's and Jetty's archives: those of Debian's packages libnetty-java,
# libjetty9-java and libservlet-api-java unless it is given. A server whose archives aren't there is left out, and that
# is said.
set -euo pipefail
[ $# -ge 1 ] || { echo "usage: java/tests/servers.sh DIR [COUNT] [CONNECTIONS]"; exit 2; }
here=$(cd "$(dirname "${BASH_SOURCE[0]}")" && pwd)
options=@$(cd "$1" && pwd)/nio.options
count=${2:-100000} connections=${3:-64}
JAR=${JAR:-/usr/share/java}
work=$(mktemp -d)
server=
trap 'kill $server 2>/dev/null || true; rm -rf "$work"' EXIT
javac -Xlint:all -Werror -d "$work" "$here"/servers/{Body,Requests}.java

# has SERVER ARCHIVE..: compiles a server with these archives; false where one isn't there.
has() {
    local name=$1 archive
    shift
    path=$work
    for archive in "$@"; do
        if [ ! -f "$JAR/$archive.jar" ]; then
            echo "$name: not run, there is no $JAR/$archive.jar"
            return 1
        fi
        path+=:$JAR/$archive.jar
    done
    javac -Xlint:all,-classfile -Werror -cp "$path" -d "$work" "$here/servers/${name}Server.java"
}

# check NAME OPTION..: runs the server with these options, and sends the requests.
check() {
    local name=$1 port status=0
    shift
    : >"$work/said"
    java "$@" -cp "$path" "${name}Server" >"$work/said" 2>"$work/errors" &
    server=$!
    until port=$(grep -oP 'port \K\d+(?=,)' "$work/said"); do
        kill -0 $server 2>/dev/null || { cat "$work/errors"; exit 1; }
        sleep 0.1
    done
    echo -n "$name, $(grep -oP ', \K.*' "$work/said"): "
    java -cp "$work" Requests "$port" "$count" "$connections" || status=1
    kill $server
    wait $server 2>/dev/null || true
    [ $status = 0 ] || { cat "$work/errors"; wrong=1; }
}

wrong=0
if has Netty netty-{buffer,codec,codec-http,common,handler,resolver,transport}; then
    check Netty -Xshare:auto
    check Netty "$options"
fi
if has Jetty jetty9-{server,http,io,util} servlet-api; then
    check Jetty -Xshare:auto
    check Jetty "$options"
fi
exit $wrong
