#!/usr/bin/env bash
# What the test run costs: runs `rt ci` at the top of the repository, from nothing, and writes for each crate the
# processor minutes of its proof, of its tests and of its wrong bodies, the dearest crate first, with the totals, the
# time that passed and the longest chain of proofs. `bench/gate.sh COMMAND..` runs that command in its place (`rt ci
# nio_pool`, say); what was proved before is then not counted. RT_JOBS=2 has at most two checks run at a time. What `rt
# ci` says goes to the file that the last line names. Nothing else should run on the machine.
set -euo pipefail
cd "$(dirname "$0")/.."
if [ $# -eq 0 ]; then
    set -- rt ci
    # an older kit keeps nothing from run to run, and knows no --anew. The help goes to standard error, with status 2.
    help=$(rt help 2>&1 || true)
    if [[ $help == *--anew* ]]; then set -- "$@" --anew; fi
fi
exec python3 bench/gate_times.py "$@"
