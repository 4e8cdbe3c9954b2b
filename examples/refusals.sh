#!/usr/bin/env bash
# Refuses each allocation in turn of what some programs do, each time from the start:
#
# - trial_calls makes calls: the answer is NoMemory, unless the call does without, nothing has changed, and the call that
#   is made again gives what it should.
# - trial_records plays the scripts of crates/trial_records/data over nodes with their rows in memory and over a cluster: the answer is
#   NoMemory, of the node or of its rows, the rows are those of before, the next call is answered by Stopped or Spent, and opened again from
#   its rows the node goes on as after a crash. Rows whose changes are made one by one, and nodes that go on after want of memory, have to
#   be found there.
# - behind the word --records it opens databases, as trial_calls makes calls, and plays the scripts named there over nodes whose rows
#   are in a database, as it plays the others; what such a node goes on from is what the database's files have.
#
# The programs run side by side, and are told of in turn. Prints a line for each call and each run with how many allocations were refused; the last line is 'N passed, M failed', and the status is
# 1 where one failed.
#
#   examples/refusals.sh
#
# `rt ci` comes first, or `rt run` in these crates: they prove the programs, and leave them in the crates' out/. A C compiler makes
# examples/refuse.c a library, by which allocations are refused (CC names another compiler than cc); without one the status is 2.
set -eu

top=$(cd "$(dirname "${BASH_SOURCE[0]}")/.." && pwd)
compiler=${CC:-cc}
seconds=1200
work=$(mktemp -d)
trap 'rm -rf "$work"' EXIT

if ! command -v "$compiler" > "$work/found"; then
    echo "refusals: there is no C compiler: $compiler isn't found (CC names another one)"
    exit 2
fi
"$compiler" -O2 -shared -fPIC -o "$work/refuse.so" "$top/examples/refuse.c"

passed=0
failed=0
runs=0

# Begins a run of a program with these words, in the folder of the crate's data where it has one. It goes on beside the others: its number is in `runs`, and what it
# prints and how it ends lie under that number.
begin() {
    local program=$1 folder
    shift
    runs=$((runs + 1))
    folder=$(dirname "$program")/../data
    [ -d "$folder" ] || folder=$(dirname "$program")
    (
        ended=0
        (cd "$folder" && LD_PRELOAD="$work/refuse.so" exec timeout "$seconds" "$program" "$@") > "$work/$runs.said" 2> "$work/$runs.errors" || ended=$?
        echo "$ended" > "$work/$runs.status"
    ) &
}

# Says what the sweep of this number found.
end_sweep() {
    local number=$1 program=$2 status wrong
    status=$(cat "$work/$number.status")
    cat "$work/$number.said" "$work/$number.errors"
    passed=$((passed + $(grep -c ': [1-9][0-9]* refused$' "$work/$number.said" || true)))
    wrong=$(grep -vc ': [1-9][0-9]* refused$' "$work/$number.said" || true)
    if [ "$status" -ne 0 ] && [ "$wrong" -eq 0 ]; then
        echo "refusals: $program ended with status $status"
        wrong=1
    fi
    failed=$((failed + wrong))
}

# Says whether the run of this number, which isn't as it should be, found this text.
end_finding() {
    local number=$1 text=$2
    cat "$work/$number.said" "$work/$number.errors"
    if grep -q ": FAILED: $text\$" "$work/$number.said"; then
        echo "refusals: found, as it should be"
        passed=$((passed + 1))
    else
        echo "refusals: NOT FOUND: $text"
        failed=$((failed + 1))
    fi
}

swept=()
for crate in trial_calls trial_records; do
    if [ ! -x "$top/crates/$crate/out/$crate" ]; then
        echo "refusals: crates/$crate/out has no program: run rt ci first, or rt run in crates/$crate"
        exit 2
    fi
    words=()
    if [ -f "$top/crates/$crate/args" ]; then
        mapfile -t words < "$top/crates/$crate/args"
    fi
    for program in "$top/crates/$crate/out/$crate" "$top/crates/$crate/out/$crate.by-rattle"; do
        if [ -x "$program" ]; then
            begin "$program" ${words[@]+"${words[@]}"}
            swept+=("$program")
        fi
    done
done
records=$top/crates/trial_records/out/trial_records
begin "$records" --careless-rows stored_run.script
begin "$records" --careless-nodes stored_run.script
wait
for number in "${!swept[@]}"; do
    end_sweep $((number + 1)) "${swept[$number]}"
done
end_finding $((runs - 1)) "the rows aren't those of before"
end_finding "$runs" "the next call isn't answered by Stopped or Spent"
echo "$passed passed, $failed failed"
[ "$failed" -eq 0 ] && [ "$passed" -gt 0 ]
