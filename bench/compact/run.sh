#!/usr/bin/env bash
# The batch *apart* (bench/workers: 536,257 evaluations) by the program of this repository, and by one in plain Rust that takes the same
# steps over compact data (plain.rs). Both must write the same replies and, with one worker, the same journal. From 16 shards on both
# have room for all cells; with fewer the program evicts some, and the journals are not compared.
#
# All take nine turns, one after another. The program's time is the shortest, without that of an empty script, which is for reading and
# joining the files; that of plain Rust is what it says of itself: evaluation, and the whole batch with replies and journal.
#
#     [WORKERS="1 4"] [SHARDS=64] [TURNS=9] bench/compact/run.sh
set -euo pipefail
here=$(cd "$(dirname "$0")" && pwd)
. "$here/../common.sh"
begin "$here"
own=$("$top/tools/program" backsim)
shards=${SHARDS:-64}
read -ra several <<<"${WORKERS:-1 4}"
build_workload
go_first

# compact WORKERS, backsim SCRIPT WORKERS: a turn.
compact() {
    timed_compact "compact-$1" "$copy/apart.script" "$copy/plain" "$copy"/workload.{bench,stim} "$copy/compact-$1.journal" "$1" "$shards"
}
backsim() {
    rm -f "$copy/$1-$2.journal"
    timed "$1-$2" "$copy/$1.script" "$own" "$copy"/workload.{bench,timing,stim} "$copy/$1-$2.journal" --workers "$2" --shards "$shards"
}

for ((turn = 0; turn < ${TURNS:-9}; turn++)); do
    for workers in "${several[@]}"; do
        compact "$workers"
        backsim empty "$workers"
        backsim apart "$workers"
    done
done

echo "| shards | workers | compact: evaluation, batch, ms | backsim, ms | backsim / compact's batch | journal |"
echo "|---|---|---|---|---|---|"
failed=0
for workers in "${several[@]}"; do
    cmp "$copy/compact-$workers.out" "$copy/apart-$workers.out" || failed=1
    journal=
    if [ "$workers" -eq 1 ] && ! grep -q '^evict' "$copy/apart-1.journal"; then
        journal="the same bytes"
        cmp "$copy/compact-1.journal" "$copy/apart-1.journal" || failed=1 journal=different
    fi
    batch=${least[compact-$workers-batch]}
    taken=$((least[apart-$workers] - least[empty-$workers]))
    times="$((least[compact-$workers-evaluation] / 1000)), $((batch / 1000)) | $((taken / 1000))"
    echo "| $shards | $workers | $times | $(ratio $taken "$batch") | $journal |"
done
exit $failed
