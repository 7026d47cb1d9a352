#!/usr/bin/env bash
# The program's times beside those of other programs, in one table with what they are meant to be:
#
# - apart: that batch of bench/compact by 64 shards, less an empty script, to the compact program's whole batch.
# - everything: each signal of examples/from_verilog at every time, with room for all cells and one worker; to the program that dist/ had
#   at an earlier commit.
# - everything of 20,000 gates at 200 times (bench/icarus): to the run of Icarus Verilog with gate primitives, which dumps all.
# - loop (bench/demand) and the workload of --work 7 (bench/work): to plain Rust.
# - of everything of 20,000 gates, and of loop, also the compact program's batch: what the same steps take over compact data.
# - evicting: every 22nd signal of from_verilog at every time, with the program's own memo, so with evictions; to that earlier program.
#   With WHOLE=1 also everything so, once, which takes either some 10 to 30 s, so it goes last and leaves other work its share; that ratio
#   is one of times of the processor.
# - memory: the most that the process has, for everything of from_verilog.
#
# All take turns, the shortest time of each counts, and they go before all else on the machine, if the system allows it. What is compared
# must write the same replies; else the status is 1. A goal that is missed leaves it 0. GNU time has to be at /usr/bin/time, and iverilog
# on PATH. BACKSIM_PROGRAMS names a folder with another program to measure.
#
#     [TURNS=9] [EARLIER=COMMIT] [WHOLE=1] bench/goals.sh
set -euo pipefail
bench=$(cd "$(dirname "$0")" && pwd)
. "$bench/common.sh"
begin "$bench/compact"
own=$("$top/tools/program" backsim)
mv "$copy/plain" "$copy/compact"
for name in demand work; do
    rustc --edition 2021 -O -o "$copy/$name" "$bench/$name/plain.rs"
done
build_workload
git -C "$top" show "${EARLIER:-3b6f197}:dist/$(uname -m)-linux/backsim" >"$copy/earlier"
chmod +x "$copy/earlier"

processor=$top/examples/from_verilog/from_verilog
sed -n 's/ = .*//p' "$processor.bench" | sed 's/.*/wave & 0 14200 150000/' >"$copy/everything.script"
awk 'NR % 22 == 1' "$copy/everything.script" >"$copy/part.script"

gates=$copy/gates/workload
asked=$copy/gates/everything.script
python3 "$bench/icarus/generate.py" "$copy/gates" 200 200 7
"$top/backsim-tools" to-verilog --primitives "$gates".{bench,timing,stim} --dump "$copy/all.vcd" >"$copy/model.v"
iverilog -g2005 -s circuit -o "$copy/model" "$copy/model.v"
go_first

# session NAME SCRIPT PROGRAM STEM OPTION..: a turn of the program at these files, with a new journal.
session() {
    local name=$1 script=$2 program=$3 stem=$4
    shift 4
    rm -f "$copy/journal"
    timed "$name" "$script" "$program" "$stem".{bench,timing,stim} "$copy/journal" "$@"
}

room="--shards 64 --cells 65536"
for ((turn = 0; turn < ${TURNS:-9}; turn++)); do
    for workers in 1 4; do
        timed_compact "compact-$workers" "$copy/apart.script" "$copy/compact" "$copy"/workload.{bench,stim} "$copy/journal" "$workers" 64
        for script in empty apart; do
            session "$script-$workers" "$copy/$script.script" "$own" "$copy/workload" --workers "$workers" --shards 64
        done
    done
    session everything-earlier "$copy/everything.script" "$copy/earlier" "$processor" --workers 1 $room
    session everything "$copy/everything.script" "$own" "$processor" --workers 1 $room
    timed icarus /dev/null vvp -n "$copy/model"
    for workers in 1 4; do
        session "gates-$workers" "$asked" "$own" "$gates" --workers "$workers" $room
        timed_compact "gates-compact-$workers" "$asked" "$copy/compact" "$gates".{bench,stim} "$copy/journal" "$workers" 64
    done
    timed loop-plain "$bench/demand/loop.script" "$copy/demand" "$bench"/demand/loop.{bench,stim}
    session loop "$bench/demand/loop.script" "$own" "$bench/demand/loop"
    timed_compact loop-compact "$bench/demand/loop.script" "$copy/compact" "$bench"/demand/loop.{bench,stim} "$copy/journal" 1 8
    rm -f "$copy/journal"
    timed work-plain /dev/null "$copy/work" 7 "$copy/journal"
    rm -f "$copy/journal"
    timed work /dev/null "$own" --work 7 "$copy/journal" --workers 1
    session part-earlier "$copy/part.script" "$copy/earlier" "$processor" --workers 1
    session part "$copy/part.script" "$own" "$processor" --workers 1
done

# used FORMAT SCRIPT PROGRAM OPTION..: what GNU time says of a session over from_verilog.
used() {
    local format=$1 script=$2 program=$3
    shift 3
    rm -f "$copy/journal"
    /usr/bin/time -f "$format" -o "$copy/used" "$program" "$processor".{bench,timing,stim} "$copy/journal" --workers 1 "$@" \
        <"$script" >"$copy/whole.out"
    cat "$copy/used"
}

# same NAME NAME: whether two replies are the same.
failed=0
same() {
    cmp "$copy/$1.out" "$copy/$2.out" || failed=1
}

# row WORK TIME OTHER GOAL: a line of the table, from microseconds.
row() {
    echo "| $1 | $(($2 / 1000)) ms | $(($3 / 1000)) ms | $(ratio "$2" "$3") | $4 |"
}

echo "| work | time | beside it | ratio | goal |"
echo "|---|---|---|---|---|"
for workers in 1 4; do
    goal=
    [ "$workers" -gt 1 ] || goal=0.9
    name="apart, 64 shards, workers: $workers; to the compact program's batch"
    row "$name" $((least[apart-$workers] - least[empty-$workers])) "${least[compact-$workers-batch]}" "$goal"
    same "compact-$workers" "apart-$workers"
done
row "everything of from_verilog, room for all; to the earlier program" "${least[everything]}" "${least[everything-earlier]}" 0.55
same everything everything-earlier
for workers in 1 4; do
    row "everything, 20,000 gates, 200 times, workers: $workers; to Icarus Verilog" "${least[gates-$workers]}" "${least[icarus]}" 1.0
    row "the compact program's batch of that" "${least[gates-compact-$workers-batch]}" "${least[icarus]}" ""
    same "gates-compact-$workers" "gates-$workers"
done
"$top/backsim-tools" from-vcd "$gates.bench" "$copy/all.vcd" circuit --ticks 10 --script "$asked" >"$copy/icarus.out"
same icarus gates-1
same icarus gates-4
row "loop; to plain Rust" "${least[loop]}" "${least[loop-plain]}" 1.4
same loop loop-plain
row "the compact program's batch of that" "${least[loop-compact-batch]}" "${least[loop-plain]}" ""
same loop-compact loop-plain
row "--work 7; to plain Rust" "${least[work]}" "${least[work-plain]}" 1.2
same work work-plain
row "evicting, a part; to the earlier program" "${least[part]}" "${least[part-earlier]}" 0.7
same part part-earlier
now=$(used %M "$copy/everything.script" "$own" $room)
before=$(used %M "$copy/everything.script" "$copy/earlier" $room)
echo "| memory of everything of from_verilog | $((now / 1000)) MB | $((before / 1000)) MB | $(ratio "$now" "$before") | 50 MB |"
if [ -n "${WHOLE:-}" ]; then
    chrt -o -p 0 $$ 2>/dev/null || :
    before=$(used '%U %S %M' "$copy/everything.script" "$copy/earlier")
    mv "$copy/whole.out" "$copy/whole-earlier.out"
    now=$(used '%U %S %M' "$copy/everything.script" "$own")
    same whole whole-earlier
    awk -v now="$now" -v before="$before" 'BEGIN {
        split(now, n); split(before, b)
        printf "| evicting, all, once, of a processor; to the earlier program | %.1f s, %d MB | %.1f s, %d MB | %.2f | 0.7 |\n",
            n[1] + n[2], n[3] / 1000, b[1] + b[2], b[3] / 1000, (n[1] + n[2]) / (b[1] + b[2])
    }'
fi
exit $failed
