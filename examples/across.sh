#!/usr/bin/env bash
# How many messages a second go from clients of one node to clients of another one, beside those that stay within a node: ten pairs of a publisher and a
# subscriber, each with 16 messages on their way, at QoS 0, 1 and 2 (examples/load.c). Three nodes run, so each message has one other node to go to. A line
# tells what came; the status is 1 where a message was acknowledged and didn't come. A load ends when nothing has come for a second, so a program that stands
# still for longer looks as if it had lost the rest.
#
#   examples/across.sh              runs the program that ./build has built
#   examples/across.sh PROGRAM..    runs these words in its place
#
# DELAY names milliseconds that each byte between two nodes takes (examples/delay.py), none where it isn't there; SECONDS_EACH how long each load goes on (3).
#
# It needs a C compiler (CC names another one than cc). The ports 1883 to 1885, 2883 to 2885 and with DELAY 3883 to 3885 must be free.
set -eu

source "$(dirname "${BASH_SOURCE[0]}")/nodes.sh"
run_by "$@"
need "${CC:-cc}"
seconds=${SECONDS_EACH:-3}
delay=${DELAY:-0}
bridges=2883
if [ "$delay" -gt 0 ]; then
    need python3
    bridges=3883
    python3 "$top/examples/delay.py" "$delay" 3883 2883 3884 2884 3885 2885 > "$work/delay" 2> "$work/delay.err" &
    await_line ready "$work/delay" $!
fi
"${CC:-cc}" -O2 -pthread -o "$work/load" "$top/examples/load.c"

# A table of three nodes; a client whose identifier begins with `publisher` has its home at n0, and one that begins with `subscriber` at the node $1.
table() {
    local number
    echo 'version = 1'
    for number in 0 1 2; do
        printf '\n[[node]]\nname = "n%s"\naddress = "%s:%s"\nbridge = "%s:%s"\n' "$number" "$host" $((1883 + number)) "$host" $((bridges + number))
    done
    printf '\n[[home]]\nprefix = "publisher"\nnode = "n0"\n\n[[home]]\nprefix = "subscriber"\nnode = "%s"\n' "$1"
}

# Loads the nodes at each QoS, with subscribers at the port $2, and says what it is of by the words $1.
load() {
    local qos said
    for qos in 0 1 2; do
        said=$("$work/load" -p "$2" -P 1883 -n 10 -a 16 -q "$qos" -s "$seconds")
        echo "$1, QoS $qos: $said"
        if [ "$qos" -gt 0 ] && ! awk '{ exit !($3 + 0 <= $5 + 0) }' <<< "$said"; then
            echo "$1, QoS $qos: not all that was acknowledged has come"
            failed=1
        fi
    done
}

# Three nodes by a table, and the load.
run_with() {
    local number
    table "$2" > "$work/table.toml"
    for number in 0 1 2; do
        options=(--bridge-listen "$host:$((2883 + number))")
        start_node "n$number" "$work/table.toml" "$work/$2-n$number.db"
    done
    sleep 2
    load "$1" "$3"
    for number in 0 1 2; do
        kill_node "n$number"
    done
}

run_with 'within a node' n0 1883
run_with 'from n0 to n1' n1 1884
exit "$failed"
