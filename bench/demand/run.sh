#!/usr/bin/env bash
# Two sessions, served by the program of this repository, by the same demand in plain Rust (plain.rs), and the second by an
# event-driven forward simulator in plain Rust (forward.rs). All must write the same replies.
#
# - loop: a gate that reads itself, asked for its value 400,000 instants back: 399,997 evaluations, each from the one before.
# - workload: sixteen questions about a circuit of 200,000 gates over 100,001 instants (generate.rs).
#
# Plain Rust and this program take fifteen turns, one after another, and the forward simulator one. The table has the shortest time of
# each, and how many times as long as plain Rust it takes.
#
#     bench/demand/run.sh
set -euo pipefail
here=$(cd "$(dirname "$0")" && pwd)
. "$here/../common.sh"
begin "$here"
own=$("$top/tools/program" backsim)
rustc --edition 2021 -O -o "$copy/forward" "$here/forward.rs"
build_workload
cp "$here"/loop.* "$copy/"

# serve NAME SESSION COMMAND..: one turn of the command at the script of the session.
serve() {
    local name=$1 session=$2
    shift 2
    rm -f "$copy/journal"
    timed "$name-$session" "$copy/$session.script" "$@"
}

for _ in {1..15}; do
    for session in loop workload; do
        serve plain $session "$copy/plain" "$copy/$session".{bench,stim}
        serve backsim $session "$own" "$copy/$session".{bench,timing,stim} "$copy/journal"
    done
done
serve forward workload "$copy/forward" "$copy/workload".{bench,stim}

echo "| session | program | ms | times plain Rust |"
echo "|---|---|---|---|"
failed=0
for name in {plain,backsim}-loop {plain,backsim,forward}-workload; do
    session=${name#*-}
    echo "| $session | ${name%-*} | $((least[$name] / 1000)) | $(ratio "${least[$name]}" "${least[plain-$session]}") |"
    cmp "$copy/$name.out" "$copy/plain-$session.out" || failed=1
done
exit $failed
