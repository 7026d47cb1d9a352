#!/usr/bin/env bash
# What several workers bring, in one table with what it is meant to be: the time of four workers as a share of that of one, for
#
# - apart and workload (the sixteen questions at full size) over the circuit of bench/demand, less an empty script, with 64 shards and with
#   the program's own 8; apart also to the program of bench/compact with four workers;
# - everything: each signal of examples/from_verilog at every time, with room for all cells;
# - evicting: every 22nd signal of it at every time, with the program's own memo; also the evaluations;
# - small: the script of examples/c17, and 10,000 batches of four questions of it, with the program's own options to one worker;
# - beside four programs that do nothing but count: apart with 64 shards.
#
# All take turns, the shortest time of each counts, and they go before all else on the machine, if the system allows it. What is compared
# must write the same replies; else the status is 1. A goal that is missed leaves it 0. BACKSIM_PROGRAMS names a folder with another program
# to measure.
#
#     [TURNS=7] bench/workers/goals.sh
set -euo pipefail
bench=$(cd "$(dirname "$0")/.." && pwd)
. "$bench/common.sh"
begin "$bench/compact"
own=$("$top/tools/program" backsim)
build_workload
processor=$top/examples/from_verilog/from_verilog
small=$top/examples/c17/c17
sed -n 's/ = .*//p' "$processor.bench" | sed 's/.*/wave & 0 14200 150000/' >"$copy/everything.script"
awk 'NR % 22 == 1' "$copy/everything.script" >"$copy/part.script"
signals=$(sed -n 's/ = .*//p' "$small.bench" | head -4)
for _ in {1..10000}; do
    for signal in $signals; do echo "at $signal 9"; done
    echo go
done >"$copy/batches.script"
go_first

# session NAME SCRIPT STEM OPTION..: a turn of the program at these files, with a new journal.
session() {
    local name=$1 script=$2 stem=$3
    shift 3
    rm -f "$copy/journal"
    timed "$name" "$script" "$own" "$stem".{bench,timing,stim} "$copy/journal" "$@"
}

for ((turn = 0; turn < ${TURNS:-7}; turn++)); do
    for workers in 1 4; do
        session empty "$copy/empty.script" "$copy/workload" --workers "$workers"
        for shards in 8 64; do
            for script in apart workload; do
                session "$script-$shards-$workers" "$copy/$script.script" "$copy/workload" --workers "$workers" --shards "$shards"
            done
            session "everything-$shards-$workers" "$copy/everything.script" "$processor" --workers "$workers" --shards "$shards" --cells 65536
        done
        session "part-$workers" "$copy/part.script" "$processor" --workers "$workers"
        grep -c '^fill ' "$copy/journal" >"$copy/fills-$workers"
        session "c17-$workers" "$small.script" "$small" --workers "$workers"
        session "batches-$workers" "$copy/batches.script" "$small" --workers "$workers"
    done
    timed_compact compact "$copy/apart.script" "$copy/plain" "$copy"/workload.{bench,stim} "$copy/journal" 4 64
done

failed=0
# row WORK NAME NAME GOAL [LESS]: a line of the table, less so many microseconds on both sides, of sessions with the same replies.
row() {
    local less=${5:-0}
    local time=$((least[$2] - less)) other=$((least[$3] - less))
    cmp "$copy/$2.out" "$copy/$3.out" || failed=1
    echo "| $1 | $((time / 1000)) ms | $((other / 1000)) ms | $(ratio $time $other) | $4 |"
}

echo "| work | four workers | one worker | ratio | goal |"
echo "|---|---|---|---|---|"
for shards in 64 8; do
    row "apart, $shards shards" "apart-$shards-4" "apart-$shards-1" "$([ $shards = 64 ] && echo 0.55 || echo 0.9)" "${least[empty]}"
    row "sixteen questions, $shards shards" "workload-$shards-4" "workload-$shards-1" "$([ $shards = 64 ] && echo 0.7 || echo 0.9)" "${least[empty]}"
    row "everything, $shards shards" "everything-$shards-4" "everything-$shards-1" "$([ $shards = 64 ] && echo 0.6 || echo 0.9)"
done
row "evicting" part-4 part-1 0.8
echo "| evaluations of that | $(cat "$copy/fills-4") | $(cat "$copy/fills-1") | $(ratio "$(cat "$copy/fills-4")" "$(cat "$copy/fills-1")") | 1.1 |"
row "the script of c17" c17-4 c17-1 1.2
row "10,000 batches of four questions" batches-4 batches-1 2
apart=$((least[apart-64-4] - least[empty]))
echo "| apart, 64 shards; beside it the compact program with four workers | $((apart / 1000)) ms | $((least[compact-batch] / 1000)) ms | $(ratio $apart "${least[compact-batch]}") | 1.2 |"

# beside four busy programs, with no priority
chrt -o -p 0 $$ 2>/dev/null || :
for _ in 1 2 3 4; do (while :; do :; done) & done
trap 'kill $(jobs -p) 2>/dev/null; rm -rf "$copy"' EXIT
for _ in 1 2 3; do
    for workers in 1 4; do
        session "busy-$workers" "$copy/apart.script" "$copy/workload" --workers "$workers" --shards 64
    done
done
row "apart, 64 shards, beside four busy programs" busy-4 busy-1 1.5
exit $failed
