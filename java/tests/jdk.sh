#!/usr/bin/env bash
# Runs the JDK's own tests of selectors, those of tests/jdk.txt: `java/tests/jdk.sh SOURCES DIR [TEST..]`. SOURCES is
# the folder of the JDK's sources (of Debian's source package openjdk-17), DIR what java/build.sh built, or `jdk` for
# the JDK's own selectors. Some tests are of TestNG: TESTNG is the path of its archives (of Debian's packages testng and
# libjcommander-java), by default those of /usr/share/java. It writes a line for each test, and at last how many passed;
# what a test that failed wrote stays in the folder that it names. JOBS=4 has at most four run at a time.
set -euo pipefail
[ $# -ge 2 ] || { echo "usage: java/tests/jdk.sh SOURCES DIR|jdk [TEST..]"; exit 2; }
here=$(cd "$(dirname "${BASH_SOURCE[0]}")" && pwd)
sources=$(cd "$1" && pwd) options=()
[ "$2" = jdk ] || options=("@$(cd "$2" && pwd)/nio.options")
shift 2
TESTNG=${TESTNG:-/usr/share/java/testng.jar:/usr/share/java/jcommander.jar}
channels=$sources/test/jdk/java/nio/channels
exports=java.base/sun.nio.ch=ALL-UNNAMED
work=$(mktemp -d -t nio-jdk-XXXXXX)
tests=("$@")
[ ${#tests[@]} -gt 0 ] || mapfile -t tests < <(grep -v '^#' "$here/jdk.txt")

# The words of the first `@run` that isn't for Windows: options of the virtual machine, behind `othervm`.
options_of() {
    grep -m 1 -oP '@run \w+/othervm\S*\K.*' "$1" | tr ' ' '\n' | grep '^-' | grep -v Windows || true
}

# run TEST: compiles it and runs it, in its folder.
run() {
    local file=$channels/$1.java name=${1##*/} folder=$work/${1//\//-} main
    mkdir -p "$folder"
    cd "$folder"
    main=("$name")
    if grep -q '@run testng' "$file"; then main=(org.testng.TestNG -testclass "$name"); fi
    mapfile -t extra < <(options_of "$file")
    javac -nowarn -XDignore.symbol.file --add-exports "$exports" -cp "$TESTNG" \
        -sourcepath "${file%/*}:$channels:$sources/test/lib" -d classes "$file" >log 2>&1 || return 1
    timeout "${SECONDS_EACH:-300}" java "${options[@]}" "${extra[@]}" --add-exports "$exports" -ea -esa \
        -cp "classes:$TESTNG" \
        -Dtest.src="${file%/*}" -Dtest.classes="$folder/classes" -Dtest.class.path="$folder/classes" \
        -Dtest.jdk="$(dirname "$(dirname "$(readlink -f "$(command -v java)")")")" -Dtest.java.opts="${options[*]}" \
        "${main[@]}" >>log 2>&1 </dev/null
}

judge() {
    local status=0
    run "$1" || status=$?
    if [ "$status" = 0 ]; then
        echo "passed $1"
    else
        echo "FAILED $1: status $status, $work/${1//\//-}/log"
    fi
}

for test in "${tests[@]}"; do
    while [ "$(jobs -rp | wc -l)" -ge "${JOBS:-1}" ]; do wait -n; done
    judge "$test" &
done | tee "$work/results"
wait
passed=$(grep -c ^passed "$work/results" || true)
echo "$passed of ${#tests[@]} passed"
[ "$passed" = ${#tests[@]} ]
