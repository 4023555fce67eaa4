#!/usr/bin/env bash
# Builds the static library and the programs in c/, compares header and exports, and runs the programs: plain, and under
# the address, undefined-behaviour and leak sanitizers. A KIT is found by the command rt. Results go to c/out.
set -euo pipefail
cd "$(dirname "$0")"
CC=${CC:-cc}
KIT=${KIT:-$(dirname "$(dirname "$(readlink -f "$(command -v rt)")")")}
[ -f "$KIT/c/liblibc_c.a" ] || KIT=/opt/rattle
(cd ../crates/nio_c && rt lib)
python3 compare.py
mkdir -p out
{ # the header's example, as a program
    printf '#include "nio.h"\n\nint main(void)\n{\n'
    sed -n 's/^ \*     //p' nio.h
    printf 'return selected.count == 1 && selected.why == NIO_WHY_READY ? 0 : 1;\n}\n'
} >out/example.c
FLAGS=(-std=c11 -Wall -Wextra -Werror -O2 -g -I.)
LIBRARIES=(../crates/nio_c/out/libnio_c.a "$KIT/c/liblibc_c.a" -pthread)
for way in plain sanitized; do
    extra=()
    [ $way = plain ] || extra=(-fsanitize=address,undefined -fno-sanitize-recover=all)
    for name in out/example echo test threads script bench; do
        "$CC" "${FLAGS[@]}" "${extra[@]}" $name.c "${LIBRARIES[@]}" -o out/"$(basename $name)"-$way
    done
    echo "== $way"
    out/example-$way
    out/test-$way
    out/threads-$way
    out/echo-$way
    for script in ../examples/*.nio; do
        history=${script%.nio}.history
        status=0
        out/script-$way <"$script" >out/history 2>out/errors || status=$?
        if [ $status = 2 ]; then
            continue # a word for pipes or groups
        fi
        cmp out/history "$history"
        echo "$(basename "$script"): as nio script"
    done
done
