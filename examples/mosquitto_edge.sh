#!/usr/bin/env bash
# Runs a node with Mosquitto in front of it, which is joined to it by examples/mosquitto_bridge.conf: clients of each get what clients of the other publish,
# once, with retained messages, also what was published while the node was down. A line tells what each check came to, and the exit status is 1 where one failed.
#
#   examples/mosquitto_edge.sh             runs the program that ./build has built
#   examples/mosquitto_edge.sh PROGRAM..   runs these words in its place, with `run CONFIG NODE DATABASE` behind them
#
# It needs mosquitto and its clients: apt-get install mosquitto mosquitto-clients. The ports 1883, 1993 and 2883 must be free.
set -eu

source "$(dirname "${BASH_SOURCE[0]}")/nodes.sh"
PATH=$PATH:/usr/sbin
run_by "$@"
need mosquitto mosquitto_pub mosquitto_sub

publish() {
    local port=$1
    shift
    timeout 20 mosquitto_pub -V 5 -h "$host" -p "$port" -q 1 "$@"
}

# What a subscriber to the filter $2 at the port $1 gets in $3 seconds, in one line.
listen() {
    mosquitto_sub -V 5 -h "$host" -p "$1" -q 1 -t "$2" -F '%t %r %p' -W "$3" 2> "$work/listen" | sort | paste -sd,
}

start() {
    start_node n0 "$top/examples/one_node.toml" "$work/n0.db"
}

# Publishes at one side until a subscriber of the other gets it.
await_bridge() {
    for _ in $(seq 30); do
        publish 1993 -t joined -m yes -r 2> "$work/refused" || true
        if [ "$(listen 1883 joined 1)" = 'joined 1 yes' ]; then
            return
        fi
    done
    echo 'the bridge is not up'
    exit 1
}

start
(cd "$work" && exec mosquitto -c "$top/examples/mosquitto_bridge.conf") > "$work/mosquitto" 2>&1 &
await_bridge

listen 1883 'to/node/#' 4 > "$work/node" &
one=$!
listen 1993 'to/mosquitto/#' 4 > "$work/edge" &
other=$!
sleep 1
for number in 1 2 3; do
    publish 1993 -t to/node/x -m "$number"
    publish 1883 -i a-tells -t to/mosquitto/x -m "$number"
done
wait "$one" "$other"
check 'from Mosquitto to the node' 'to/node/x 0 1,to/node/x 0 2,to/node/x 0 3' "$(cat "$work/node")"
check 'from the node to Mosquitto' 'to/mosquitto/x 0 1,to/mosquitto/x 0 2,to/mosquitto/x 0 3' "$(cat "$work/edge")"

publish 1883 -i a-tells -t kept/node -r -m here
publish 1993 -t kept/edge -r -m there
sleep 1
check 'retained, at the node' 'kept/edge 1 there,kept/node 1 here' "$(listen 1883 'kept/#' 2)"
check 'retained, at Mosquitto' 'kept/edge 1 there,kept/node 1 here' "$(listen 1993 'kept/#' 2)"

timeout 20 mosquitto_sub -V 5 -h "$host" -p 1883 -i a-away -c -x 3600 -q 1 -t later -E
kill_node n0
publish 1993 -t later -m 'while it was down'
start
for _ in $(seq 20); do
    timeout 20 mosquitto_sub -V 5 -h "$host" -p 1883 -i a-away -c -x 3600 -q 1 -t later -W 2 -C 1 > "$work/later" 2> "$work/listen" && break
done
check 'what was published while the node was down' 'while it was down' "$(cat "$work/later")"
exit "$failed"
