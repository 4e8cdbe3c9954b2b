#!/usr/bin/env bash
# Runs the three nodes of examples/cluster.toml with empty databases, each with its status told at a port of its own, and shows what they tell:
# while all run, while one is killed and others go on, and once it is back. Prints for each node its gate, its clients and its peers, and whether
# its metrics are the figures of its /status.json, and have nothing that promtool finds fault with. Exits 1 where they aren't, or have, and where
# a gate is open while a peer lacks something, or stays shut.
#
#   examples/status.sh             runs the program that ./build has built
#   examples/status.sh PROGRAM..   runs these words in its place, with `run CONFIG NODE DATABASE --status ADDRESS` behind them
#
# It needs curl, python3 and mosquitto's clients: apt-get install curl python3 mosquitto-clients. Where promtool isn't there (apt-get install
# prometheus), it says so and goes on without. The ports 1883 to 1885, 2883 to 2885 and 8083 to 8085 must be free.
set -eu

source "$(dirname "${BASH_SOURCE[0]}")/nodes.sh"
run_by "$@"
need curl mosquitto_pub mosquitto_sub python3

# Subscribes in the background at n0, and waits until the retained message $1 has come.
listen() {
    : > "$work/listener"
    mosquitto_sub -V 5 -h "$host" -p 1883 -i a-listener -q 1 -t 'status/#' -k 600 -W 600 -F '%p' \
        > "$work/listener" 2> "$work/listener.err" &
    await_line "$1" "$work/listener" "$!"
}

# What a node tells at a path.
ask() {
    curl -s -S -m 10 "http://$(place "$1")/$2"
}

# Asks a node for its metrics and for its figures as JSON, until its metrics are the same afterwards as before.
ask_both() {
    for _ in $(seq 100); do
        ask "$1" metrics > "$work/metrics"
        ask "$1" status.json > "$work/json"
        ask "$1" metrics > "$work/later"
        if cmp -s "$work/metrics" "$work/later"; then
            return
        fi
    done
    echo "n$1: its metrics never stand still"
    failed=1
}

# Whether the metrics of a node are its figures, and have the form of metrics.
examine() {
    ask_both "$1"
    "$top/examples/status_counts.py" "$work/metrics" "$work/json" > "$work/counts" || failed=1
    sed "s/^/n$1: /" "$work/counts"
    if ! command -v promtool > "$work/found"; then
        echo "n$1: promtool isn't installed, and isn't asked"
    elif promtool check metrics < "$work/metrics" > "$work/promtool" 2>&1 && [ ! -s "$work/promtool" ]; then
        echo "n$1: promtool has nothing to say of /metrics"
    else
        sed "s/^/n$1: promtool: /" "$work/promtool"
        failed=1
    fi
}

# Whether node $1 answers a request whose Host is $2 by the code $3.
answers() {
    local code
    code=$(curl -s -o "$work/answer" -m 10 -w '%{http_code}' -H "Host: $2" "http://$(place "$1")/healthz")
    if [ "$code" != "$3" ]; then
        echo "n$1: a request by the host $2 has the answer $code, and not $3"
        failed=1
    fi
}

# What a node tells of itself and its peers, of its metrics.
show() {
    local node
    for node in "$@"; do
        echo "n$node: $(gate "$node") $(cat "$work/gate")"
        ask "$node" metrics | grep -E '^mqtt_(subscriptions|retained_messages|cluster_peer_[a-z_]+)' | sed 's/^/    /'
        examine "$node"
    done
}

for node in 0 1 2; do
    start_with_status "$node"
done
await_gates 200 0 1 2
retain status/first 1
listen 1
await_gates 200 0 1 2
echo '--- all run'
show 0 1 2
answers 0 n0:8083 200
answers 0 localhost 200
answers 0 other.example 421

kill_node n2
echo '--- n2 is killed, and two messages are retained'
retain status/second 2
retain status/third 3
await_gates 503 0 1
show 0 1

start_with_status 2
await_gates 200 0 1 2
echo '--- n2 is back'
show 0 1 2

if [ "$failed" -eq 0 ]; then
    echo 'each gate was open where its peers had all, and the metrics were the figures'
fi
exit "$failed"
