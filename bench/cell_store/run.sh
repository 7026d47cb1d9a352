#!/usr/bin/env bash
# A million puts and a million finds at capacity 65,536, in plain Rust and in this repository's store, and there 65,536 of each in orders
# that could be slow.
# The program over the store is proved and built beside copies of the crates. The texts here are its source, its
# definitions and its proofs: that the cells which it puts are equal or apart.
set -euo pipefail
here=$(cd "$(dirname "$0")" && pwd)
. "$here/../common.sh"
begin "$here"
copy_crates "$copy/repository" cell_store
echo "cell_store_time: gate_values valid_intervals texts cell_store" >>"$copy/repository/crates.txt"
program=$copy/repository/crates/cell_store_time
mkdir -p "$program/src" "$program/specs" "$program/proofs/put" "$program"/proofs/{put_all,put_in_order}
cp "$here/program.txt" "$program/src/main.rt"
echo "pub mod Grid" >"$program/specs/Lib.antt"
cp "$here/definitions.txt" "$program/specs/Grid.antt"
echo "pub mod Grids" >"$program/proofs/Lib.antt"
cp "$here/laws.txt" "$program/proofs/Grids.antt"
cp "$here/put.txt" "$program/proofs/put/Answers.antt"
for name in put_all put_in_order; do cp "$here/$name.txt" "$program/proofs/$name/Invariants.antt"; done
(cd "$program" && rt run >/dev/null)
in_turn "$copy/plain" "$program/out/cell_store_time"
