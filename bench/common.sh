# What the measurements share; each reads this file. A program of a measurement is built beside copies of the crates that it
# stands on, since the gate takes no source outside crates/.
top=$(cd "$(dirname "${BASH_SOURCE[0]}")/.." && pwd)

# copy_crates FOLDER CRATE..: a repository in FOLDER that has these crates and all below them, without what was built of them.
copy_crates() {
    local folder=$1 crate
    shift
    mkdir -p "$folder/crates"
    cp "$top/HANDLES" "$folder/"
    for crate in $(cd "$top/tools" && python3 -c 'import sys, crates; print(*crates.with_all_below(sys.argv[1:], crates.libraries()))' "$@"); do
        (cd "$top/crates" && tar cf - --exclude="$crate/out" "$crate") | (cd "$folder/crates" && tar xf -)
        grep -E "^$crate( [^:]*)?:" "$top/crates.txt" >>"$folder/crates.txt"
    done
}

# begin FOLDER: makes a scratch folder, $copy, that goes with the script, and builds FOLDER's program in plain Rust there.
begin() {
    copy=$(mktemp -d)
    trap 'rm -rf "$copy"' EXIT
    rustc --edition 2021 -O -o "$copy/plain" "$1/plain.rs"
}

# in_turn PLAIN OWN: runs the program in plain Rust and that of this repository three times, one after the other.
in_turn() {
    for _ in 1 2 3; do
        echo "plain Rust:"
        "$1"
        echo "this repository:"
        "$2"
    done
}

# build_workload: writes the circuit of bench/demand to $copy (workload.bench and so on), with its script and two more: apart, sixteen
# windows of 100 instants, of outputs whose fan-in cones share no gate, and empty.
build_workload() {
    rustc --edition 2021 -O -o "$copy/generate" "$top/bench/demand/generate.rs"
    "$copy/generate" "$copy" 7
    for i in $(seq 0 15); do
        echo "wave g99_$((125 * i)) 90000 90100 62500"
    done >"$copy/apart.script"
    : >"$copy/empty.script"
}

# go_first: from now on what the script runs goes before all else on the machine, if the system allows it. So call it once all is built.
go_first() {
    chrt -f -p 10 $$ 2>/dev/null || echo "without real-time priority: other work lengthens the times" >&2
}

# keep NAME MICROSECONDS: keeps the shortest time so far in ${least[NAME]}.
declare -A least
keep() {
    if [ -z "${least[$1]:-}" ] || [ "$2" -lt "${least[$1]}" ]; then least[$1]=$2; fi
}

# timed NAME INPUT COMMAND..: runs the command, whose output goes to $copy/NAME.out, and keeps the shortest of its times so far. Commands
# that are compared take turns, so that what else the machine does comes to all of them. Who calls it removes the journal of the turn
# before: a file system may write what replaces a file's text to the disk before it is closed.
timed() {
    local name=$1 input=$2 start
    shift 2
    start=${EPOCHREALTIME/./}
    "$@" <"$input" >"$copy/$name.out" 2>/dev/null
    keep "$name" $((${EPOCHREALTIME/./} - start))
}

# timed_compact NAME INPUT COMMAND..: the same for the program of bench/compact, whose last words are its journal, workers and shards. Kept
# are what it says of itself: ${least[NAME-evaluation]} and ${least[NAME-batch]}.
timed_compact() {
    local name=$1 input=$2 what taken
    shift 2
    rm -f "${@: -3:1}"
    "$@" <"$input" >"$copy/$name.out" 2>"$copy/$name.said"
    while read -r what taken; do keep "$name-$what" "$taken"; done < <(grep -oE '(evaluation|batch) [0-9]+' "$copy/$name.said")
}

# ratio TIME OTHER: how many times as long the one takes as the other.
ratio() {
    awk -v one="$1" -v other="$2" 'BEGIN { printf "%.2f", one / other }'
}
