#!/usr/bin/env bash
# Measures read_bench against wc -l and a plain Rust reader of the same lines, on a netlist of 1,000,000
# gates of two pins and on one at the limits (1,048,576 signals, 4,190,112 pins).
#
#     bench/netlist/run.sh
#
# It writes under bench/out. For each file it prints three times what each reader answers and how
# long it took, and the processor time and the greatest memory of the process.
set -euo pipefail

here=$(cd "$(dirname "$0")" && pwd)
. "$here/../common.sh"
out=$top/bench/out/netlist
mkdir -p "$out"

(cd "$here" && CARGO_TARGET_DIR="$out/target" cargo build --release --quiet)
bin=$out/target/release
"$bin/generate" 1001001 2 "$out/million.bench"
"$bin/generate" 1048576 4 "$out/limit.bench"

# A program of its own, beside copies of the crates that it stands on.
work=$(mktemp -d)
trap 'rm -rf "$work"' EXIT
copy_crates "$work" bench_reader
mkdir -p "$work/crates/netlist_time/src"
cp "$here/program.txt" "$work/crates/netlist_time/src/main.rt"
echo "netlist_time: texts bench_reader anyhow" >>"$work/crates.txt"
(cd "$work/crates/netlist_time" && rt run -- "$out/million.bench" >/dev/null)
proved=$work/crates/netlist_time/out/netlist_time

measure() {
    if [ -x /usr/bin/time ]; then
        /usr/bin/time -f "  processor %U s, memory %M kB" "$@"
    else
        "$@"
    fi
}

for file in million limit; do
    for _ in 1 2 3; do
        echo "== $file: wc -l"
        measure wc -l "$out/$file.bench"
        echo "== $file: plain Rust"
        measure "$bin/read" "$out/$file.bench"
        echo "== $file: read_bench"
        measure "$proved" "$out/$file.bench"
    done
done
