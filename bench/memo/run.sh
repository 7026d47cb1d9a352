#!/usr/bin/env bash
# A chain of 399,997 evaluations by one strand over one shard at its capacity, in plain Rust and in this repository's shard. Both write
# down the same entries: what they print differs in the time alone.
# The program over the shard is proved and built beside copies of the crates; the texts here are its source and its proofs.
set -euo pipefail
here=$(cd "$(dirname "$0")" && pwd)
. "$here/../common.sh"
begin "$here"
copy_crates "$copy/repository" memo_shards
echo "memo_time: smallvec gate_values valid_intervals circuit_meaning journal_meaning plan_machine texts cell_store claim_waiters bench_reader timing_file stimulus_file design demand_points memo_shards" >>"$copy/repository/crates.txt"
program=$copy/repository/crates/memo_time
mkdir -p "$program/src" "$program/proofs/serve" "$program/proofs/serve_loop"
cp "$here/program.txt" "$program/src/main.rt"
cp "$here/serve.txt" "$program/proofs/serve/Answers.antt"
cp "$here/serve_loop.txt" "$program/proofs/serve_loop/Invariants.antt"
(cd "$program" && rt run >/dev/null)
in_turn "$copy/plain" "$program/out/memo_time"
