#!/usr/bin/env bash
# Writes and reads the text of a section of a million entries, in plain Rust and in this repository's crate.
set -euo pipefail
here=$(cd "$(dirname "$0")" && pwd)
. "$here/../common.sh"
begin "$here"
copy_crates "$copy/repository" journal_text
echo "journal_text_time: gate_values valid_intervals circuit_meaning journal_meaning texts journal_text" >>"$copy/repository/crates.txt"
program=$copy/repository/crates/journal_text_time
mkdir -p "$program/src"
cp "$here/program.txt" "$program/src/main.rt"
(cd "$program" && rt run >/dev/null)
in_turn "$copy/plain" "$program/out/journal_text_time"
