#!/usr/bin/env bash
# A broker with clients and peers that it must bear: one that sends a byte a second, one that never reads, bursts that come and go, more than it
# may have open, streams with changed bytes, and noise at the port for other nodes; and, with limits and 2 GB of memory, clients that would fill it: by
# a queue, by retained messages, by filters, by user properties, by packets that aren't finished. Beside each a witness publishes and is served. Prints what
# was done and how much memory the broker had before and after, and ends with status 1 where something isn't as it should be.
#
#   examples/hostile.sh             runs the program that ./build has built
#   examples/hostile.sh PROGRAM..   runs these words in its place, with `run CONFIG NODE DATABASE` behind them
#
# STREAMS says how many streams (10,000), NOISE how many bytes (10,000,000), SEED with which random numbers. It needs python3. The ports 1883,
# 2883 and 2884 must be free.
set -eu

source "$(dirname "${BASH_SOURCE[0]}")/nodes.sh"
run_by "$@"
need python3
clients=$top/examples/hostile_clients.py
port=1883
bridge=2883
peer=2884
seed=${SEED:-1}

# Runs the words behind $1 in a process that may have so many files open.
limited() {
    ulimit -n "$1"
    shift
    exec "$@"
}

# Starts a broker that may have so many files open: a node n0 of the table $2.
start_broker() {
    start_node n0 "$top/examples/$2.toml" "$work/$1.$2.db" limited "$1"
    broker=${nodes[n0]}
}

stop_broker() {
    if ! kill "$broker" 2> "$work/kill"; then
        echo "the broker has ended: $(cat "$work/n0.err")"
        failed=1
    fi
    wait "$broker" 2> "$work/kill" || true
}

# The memory of the broker in kilobytes.
memory() {
    awk '/^VmRSS/ { print $2 }' "/proc/$broker/status"
}

try() {
    python3 "$clients" "$@" || failed=1
}

# Looks whether the broker has told that it may have no more files open.
look_for_limit() {
    local told
    told=$(grep -c '^broker: accepting clients: too many open files$' "$work/n0.err" || true)
    echo "the broker has told $told times that too many files were open"
    if [ "$told" = 0 ]; then
        failed=1
    fi
}

start_broker "$(ulimit -n)" one_node
before=$(memory)
try slow "$port"
try deaf "$port"
try bursts "$port" 2000
try streams "$port" "${STREAMS:-10000}" "$seed"
echo "memory of the broker: $before kB before, $(memory) kB after"
stop_broker
start_broker "$(ulimit -n)" cluster
before=$(memory)
try noise "$bridge" "${NOISE:-10000000}" "$seed" "$port" "$peer"
echo "memory of the broker: $before kB before, $(memory) kB after"
stop_broker
start_broker 64 one_node
try many "$port" 100
look_for_limit
stop_broker
# Within 2 GB of the system's, a broker that takes nothing new above 500 MB; after each attack it opens again within the same.
held() {
    ulimit -v 2000000
    exec "$@"
}
for attack in "queue 60000" "retained 8000" "wildcards 3000" "properties 40000" "unfinished 2000"; do
    options=(--careful --most-memory 500)
    start_node n0 "$top/examples/one_node.toml" "$work/held.${attack%% *}.db" held
    broker=${nodes[n0]}
    before=$(memory)
    try ${attack%% *} "$port" ${attack##* }
    echo "memory of the broker: $before kB before, $(memory) kB after"
    stop_broker
    start_node n0 "$top/examples/one_node.toml" "$work/held.${attack%% *}.db" held
    broker=${nodes[n0]}
    echo "it has opened again, with $(memory) kB"
    stop_broker
done
exit "$failed"
