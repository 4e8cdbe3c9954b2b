#!/usr/bin/env bash
# Stops a node at each call by which it writes its database: killed at the first pwrite64, then in another run at the second, and so on until
# a run ends without; then likewise with EIO as that call's answer; then with a disk that is full from that call on (ENOSPC), until the node is started again; then
# killed and EIO of fdatasync and of fsync. A client connects, subscribes,
# publishes retained messages, unsubscribes and removes a message, and notes what is acknowledged. After each run the node is started again
# over its database, and what it holds has to be what it held after the last step that was acknowledged, or after the next one.
#
#   examples/file_stops.sh             runs the program that ./build has built
#   examples/file_stops.sh PROGRAM..   runs these words in its place, with `run CONFIG NODE DATABASE` behind them
#
# Prints a line for each call and fault with how many runs there were, and exits 1 where a run ends with anything else. It needs strace,
# which injects the faults, and python3. The ports 1883 and 2883 must be free.
set -eu

top=$(cd "$(dirname "${BASH_SOURCE[0]}")/.." && pwd)
program=("$top/broker")
if [ "$#" -gt 0 ]; then
    program=("$@")
else
    "$top/broker" play "$top/examples/stored_run.script" > /dev/null
    program=("$top/dist/broker")
fi
configuration=$top/examples/one_node.toml
most=500
work=$(mktemp -d)
traced=

# Ends the node, which strace has started, and strace with it.
end_node() {
    if [ -n "$traced" ]; then
        ps -o pid= --ppid "$traced" | xargs -r kill 2> "$work/kill" || true
        wait "$traced" 2> "$work/kill" || true
        traced=
    fi
}

clean_up() {
    end_node
    rm -rf "$work"
}
trap clean_up EXIT

# What `check` tells after so many steps: sessions, subscriptions, retained messages.
held_after() {
    case $1 in
    0) echo '0 0 0' ;;
    1) echo '1 0 0' ;;
    2) echo '1 1 0' ;;
    3) echo '1 1 1' ;;
    4) echo '1 1 2' ;;
    5) echo '1 0 2' ;;
    *) echo '1 0 1' ;;
    esac
}

# Takes the steps, each once the one before is acknowledged, and prints how many were.
take_steps() {
    python3 - "$top/examples" << 'END'
import sys
sys.path.insert(0, sys.argv[1])
sys.dont_write_bytecode = True
from kill_client import Connection, Refused, packet, text

PUBACK, SUBACK, UNSUBACK = 4, 9, 11
STEPS = [
    (SUBACK, packet(0x82, b"\0\1\0" + text("news") + b"\1")),
    (PUBACK, packet(0x33, text("one") + b"\0\2\0on")),
    (PUBACK, packet(0x33, text("two") + b"\0\3\0on")),
    (UNSUBACK, packet(0xA2, b"\0\4\0" + text("news"))),
    (PUBACK, packet(0x33, text("two") + b"\0\5\0")),
]
made = 0
try:
    connection = Connection(1883, "stops")
    made = 1
    for kind, sent in STEPS:
        connection.send(sent)
        came = connection.next(10)
        if came is None or came[0] != kind:
            break
        made += 1
except (OSError, EOFError, Refused, SystemExit):
    pass
print(made)
END
}

# Starts the node over a new database with these words of strace before it, and takes the steps; `made` has how many were acknowledged.
run() {
    rm -rf "$work/db"
    mkdir "$work/db"
    : > "$work/said"
    strace -f -o "$work/trace" "$@" "${program[@]}" run "$configuration" n0 "$work/db/broker.db" \
        > "$work/said" 2> "$work/errors" &
    traced=$!
    until grep -q '^ready ' "$work/said" || ! kill -0 "$traced" 2> "$work/kill"; do
        sleep 0.02
    done
    made=0
    if grep -q '^ready ' "$work/said"; then
        made=$(take_steps)
    fi
    end_node
}

# Whether the node starts over what is left, and holds what it held after the steps that were made, or after one more.
is_kept() {
    if ! "${program[@]}" serve "$configuration" n0 "$work/db/broker.db" --turns 1 > "$work/again" 2>&1; then
        cat "$work/again"
        return 1
    fi
    "${program[@]}" check "$configuration" n0 "$work/db/broker.db" > "$work/held"
    held=$(sed -n 's/^\(sessions\|subscriptions\|retained\) //p' "$work/held" | paste -sd ' ')
    [ "$held" = "$(held_after "$made")" ] || [ "$held" = "$(held_after $((made + 1)))" ]
}

# Stops the node at each call of this name in turn; with '+' as the last word at that call and all later ones.
stop_at() {
    local call=$1 how=$2 fault=$3 later=${4-} number
    for number in $(seq "$most"); do
        run -e "trace=$call" -e "inject=$call:$fault:when=$number$later"
        if ! is_kept; then
            echo "$call, $how at number $number: after $made steps the node holds: ${held-nothing}"
            exit 1
        fi
        if ! grep -q -e INJECTED -e 'killed by SIGKILL' "$work/trace"; then
            break
        fi
    done
    if [ "$made" -ne 6 ]; then
        echo "$call, $how: $made steps are made where nothing is stopped"
        exit 1
    fi
    echo "$call, $how: $((number - 1)) runs, each with what it held before or after"
}

for call in pwrite64 fdatasync fsync; do
    stop_at "$call" killed signal=KILL
    stop_at "$call" failed error=EIO
    if [ "$call" = pwrite64 ]; then
        stop_at "$call" 'without room from then on' error=ENOSPC +
    fi
done
