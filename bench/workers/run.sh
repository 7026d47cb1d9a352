#!/usr/bin/env bash
# One batch by 1, 2 and 4 workers, by the program of this repository and by one in plain Rust with the same locks (plain.rs). Both
# must write the same replies. Two scripts about the circuit of bench/demand (200,000 gates, 100,001 instants):
#
# - workload: its sixteen questions, 82,730 evaluations.
# - apart: sixteen windows of 100 instants, of outputs whose fan-in cones share no gate.
#
# All take nine turns, one after another. A time is the shortest, without that of an empty script, which is for reading and joining the
# files. SHARDS is the number of shards of both programs, 8 if it is not set.
#
#     [SHARDS=64] bench/workers/run.sh
set -euo pipefail
here=$(cd "$(dirname "$0")" && pwd)
. "$here/../common.sh"
begin "$here"
own=$("$top/tools/program" backsim)
shards=${SHARDS:-8}
build_workload

plain() { "$copy/plain" "$copy/workload.bench" "$copy/workload.stim" "$copy/journal" "$1" "$shards"; }
backsim() { "$own" "$copy"/workload.{bench,timing,stim} "$copy/journal" --workers "$1" --shards "$shards"; }

for _ in {1..9}; do
    for program in plain backsim; do
        rm -f "$copy/journal"
        timed "$program-empty-1" "$copy/empty.script" $program 1
        for script in workload apart; do
            for workers in 1 2 4; do
                rm -f "$copy/journal"
                timed "$program-$script-$workers" "$copy/$script.script" $program $workers
            done
        done
    done
done

echo "| script | workers | plain Rust, ms | backsim, ms | backsim / plain Rust |"
echo "|---|---|---|---|---|"
failed=0
for script in workload apart; do
    for workers in 1 2 4; do
        plain=$((least[plain-$script-$workers] - least[plain-empty-1]))
        own=$((least[backsim-$script-$workers] - least[backsim-empty-1]))
        cmp "$copy"/{plain,backsim}-$script-$workers.out || failed=1
        echo "| $script | $workers | $((plain / 1000)) | $((own / 1000)) | $(ratio $own $plain) |"
    done
done
exit $failed
