#!/usr/bin/env bash
# The program's own workload, and the same in plain Rust (plain.rs), once built directly and once by its texts, which it writes and
# reads back as the program does (texts.rs). With one worker all write the same journal and the same line. More workers share the
# queries in an order of their own, so that their journals differ, and only the line is compared.
#
# All take fifteen turns, one after another. The table has the shortest time of each, and how many times as long as plain Rust without
# and with texts it takes.
#
#     bench/work/run.sh [NUMBER..]
set -euo pipefail
here=$(cd "$(dirname "$0")" && pwd)
. "$here/../common.sh"
begin "$here"
own=$("$top/tools/program" backsim)
[ $# -gt 0 ] || set -- 7

# compare_journals FILE FILE: says whether they agree byte for byte, or in the lines alone.
compare_journals() {
    if cmp -s "$1" "$2"; then
        echo "the same bytes"
    elif cmp -s <(LC_ALL=C sort "$1") <(LC_ALL=C sort "$2"); then
        echo "the same lines in another order"
    else
        echo "different"
    fi
}

echo "| workload | program | ms | times plain Rust | times that with texts | line | journal |"
echo "|---|---|---|---|---|---|---|"
failed=0
for number in "$@"; do
    least=()
    for _ in {1..15}; do
        rm -f "$copy"/*.journal
        timed plain /dev/null "$copy/plain" "$number" "$copy/plain.journal"
        timed texts /dev/null "$copy/plain" "$number" "$copy/texts.journal" texts
        for workers in 1 2 4; do
            timed "$workers" /dev/null "$own" --work "$number" "$copy/$workers.journal" --workers "$workers"
        done
    done
    line=$(cat "$copy/plain.out")
    for name in plain texts 1 2 4; do
        said=$(cat "$copy/$name.out")
        case $name in
        plain) program="plain Rust" journals= ;;
        texts) program="plain Rust with texts" journals=$(compare_journals "$copy/plain.journal" "$copy/texts.journal") ;;
        1) program="backsim, workers: 1" journals=$(compare_journals "$copy/plain.journal" "$copy/1.journal") ;;
        *) program="backsim, workers: $name" journals= ;;
        esac
        ratios="$(ratio "${least[$name]}" "${least[plain]}") | $(ratio "${least[$name]}" "${least[texts]}")"
        echo "| $number | $program | $((least[$name] / 1000)) | $ratios | $said | $journals |"
        if [ "$said" != "$line" ] || [ "$journals" = different ]; then failed=1; fi
    done
done
exit $failed
