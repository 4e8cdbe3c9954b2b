#!/usr/bin/env bash
# Kills a node ten times by SIGKILL, at QoS 1 and then at QoS 2: five times while a publisher publishes for a subscriber that is away, and five
# times while that subscriber receives. Each time the node is started again over its database, and the clients go on. Prints what was
# acknowledged and what came, and exits 1 where something acknowledged didn't come, or comes twice at QoS 2, or out of order.
#
#   examples/kill.sh             runs the program that ./build has built
#   examples/kill.sh PROGRAM..   runs these words in its place, with `run CONFIG NODE DATABASE` behind them
#
# Each kill comes after 1 to 2,000 further messages, or after at most as many as MESSAGES says. It needs python3. The ports 1883 and 2883
# must be free.
set -eu

source "$(dirname "${BASH_SOURCE[0]}")/nodes.sh"
run_by "$@"
need python3
client=$top/examples/kill_client.py
port=1883
kills=5
most=${MESSAGES:-2000}

# Starts the node over the database for this QoS.
start() {
    start_node n0 "$top/examples/one_node.toml" "$work/qos$1.db"
}

# Waits until a file has so many lines, or the process $3 has ended.
await_lines() {
    while [ "$(lines "$1")" -lt "$2" ] && kill -0 "$3" 2> "$work/kill"; do
        sleep 0.01
    done
}

# What is said of the numbers that came: those that were acknowledged and didn't, how many came again, and whether they came in order.
judge() {
    local acknowledged=$1 came=$2 qos=$3 lost again
    awk '!seen[$1]++' "$came" > "$work/first"
    lost=$(sort "$acknowledged" | comm -23 - <(sort "$came") | wc -l)
    again=$(($(lines "$came") - $(lines "$work/first")))
    echo "QoS $qos: $(lines "$acknowledged") acknowledged, $lost of them lost, $again came again"
    if ! sort -n -c "$work/first"; then
        echo "QoS $qos: they came out of order"
        failed=1
    fi
    if [ "$lost" -gt 0 ] || { [ "$qos" -eq 2 ] && [ "$again" -gt 0 ]; }; then
        failed=1
    fi
}

# Kills the node while it is published to, and while it delivers.
try_at() {
    local qos=$1 publisher receiver total number
    start "$qos"
    "$client" subscribe "$port" "$qos"
    : > "$work/acknowledged"
    "$client" publish "$port" "$qos" "$work/acknowledged" > "$work/published" &
    publisher=$!
    for number in $(seq "$kills"); do
        await_lines "$work/acknowledged" $(($(lines "$work/acknowledged") + RANDOM % most + 1)) "$publisher"
        kill_node n0
        start "$qos"
    done
    kill "$publisher" 2> "$work/kill" || true
    wait "$publisher"
    echo "QoS $qos: $(cat "$work/published"), over $kills kills"
    total=$(lines "$work/acknowledged")
    : > "$work/came"
    "$client" receive "$port" "$qos" "$total" "$work/came" &
    receiver=$!
    for number in $(seq "$kills"); do
        await_lines "$work/came" $((total * number / (kills + 1))) "$receiver"
        kill_node n0
        start "$qos"
    done
    wait "$receiver"
    judge "$work/acknowledged" "$work/came" "$qos"
    kill_node n0
}

for qos in 1 2; do
    try_at "$qos"
done
if [ "$failed" -eq 0 ]; then
    echo 'nothing acknowledged was lost'
fi
exit "$failed"
