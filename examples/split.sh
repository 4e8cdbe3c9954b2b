#!/usr/bin/env bash
# Runs two nodes whose links go through examples/proxy.py, and parts them: the proxy drops all that they send each other.
# Meanwhile both sides give the same topics other retained messages, clients subscribe at both, and messages are published
# for a client of the other side. Then the split heals. Last, one node stands still (SIGSTOP) while the other goes on. Prints what
# new subscribers get at each node and what came, and exits 1 where the nodes don't agree in the end, something acknowledged is
# lost, or a node waits for the other.
#
#   examples/split.sh             runs the program that ./build has built
#   examples/split.sh PROGRAM..   runs these words in its place, with `run CONFIG NODE DATABASE` behind them
#
# The node stands still for 20 seconds, or for as many as STILL says, and what is wanted is waited for 60, or PATIENCE.
# It needs python3 and mosquitto's clients: apt-get install mosquitto-clients. The ports 1883, 1884, 2883, 2884, 3883 and
# 3884 must be free.
set -eu

source "$(dirname "${BASH_SOURCE[0]}")/nodes.sh"
run_by "$@"
need mosquitto_pub mosquitto_sub python3
seconds=3600
still=${STILL:-20}
patience=${PATIENCE:-60}

# The table of homes as a node sees it: the bridges of n0 and n1 are at the ports $1 and $2.
write_table() {
    cat << TOML
[[node]]
name = "n0"
address = "$host:1883"
bridge = "$host:$1"

[[node]]
name = "n1"
address = "$host:1884"
bridge = "$host:$2"

[[home]]
prefix = "a"
node = "n0"

[[home]]
prefix = "b"
node = "n1"
TOML
}

start_proxy() {
    "$top/examples/proxy.py" 3883 2883 3884 2884 > "$work/proxy" 2> "$work/proxy.err" &
    proxy=$!
    await_line ready "$work/proxy" "$proxy"
}

start() {
    start_node "$1" "$work/$1.toml" "$work/$1.db"
    echo "$1: $(cat "$work/$1")"
}

# Publishes at node $1, and returns once it is acknowledged.
publish() {
    local node=$1 client
    client=$([ "$node" = 0 ] && echo a-publisher || echo b-publisher)
    shift
    mosquitto_pub -V 5 -h "$host" -p $((1883 + node)) -i "$client" -q 1 "$@"
}

# Gives the topic $2 a retained message at node $1, or with an empty one none.
retain() {
    if [ -n "$3" ]; then
        publish "$1" -r -t "split/$2" -m "$3"
    else
        publish "$1" -r -t "split/$2" -n
    fi
}

# The retained messages at node $1, by a new subscriber: topic and payload, in one line.
ask() {
    local client
    client=$([ "$1" = 0 ] && echo a-asks || echo b-asks)
    mosquitto_sub -V 5 -h "$host" -p $((1883 + $1)) -i "$client" -t 'split/#' -W 2 -F '%t %p' 2> "$work/asked" |
        sed 's|^split/||' | sort | tr '\n' ',' | sed 's/,$//' || true
}

# Subscribes in the background at node $1, as client $2, to the filter $3. Each message is a line of the file $2.
listen() {
    : > "$work/$2"
    mosquitto_sub -V 5 -h "$host" -p $((1883 + $1)) -i "$2" -q 1 -t "$3" -k 600 -W "$seconds" -F '%p' > "$work/$2" 2> "$work/$2.err" &
}

# Publishes `ready` and the node $1 there to the topic $2 until it has come to each of the clients that follow.
await() {
    local node=$1 topic=$2 client waits
    shift 2
    for _ in $(seq 100); do
        publish "$node" -t "$topic" -m "ready $node"
        sleep 0.1
        waits=0
        for client in "$@"; do
            grep -q "^ready $node\$" "$work/$client" || waits=1
        done
        if [ "$waits" -eq 0 ]; then
            return
        fi
    done
    echo "$topic: nothing came to some of: $*"
    exit 1
}

# Compares $2 with what the words that follow print, for a while.
compare() {
    local name=$1 wanted=$2 end=$((SECONDS + patience)) got
    shift 2
    while [ "$SECONDS" -le "$end" ]; do
        got=$("$@")
        if [ "$got" = "$wanted" ]; then
            echo "$name: $got"
            return
        fi
        sleep 0.3
    done
    echo "$name: got '$got', wanted '$wanted'"
    failed=1
}

# What a client received, beside `ready`, in the order in which it came.
received() {
    { grep -v '^ready' "$work/$1" || true; } | tr '\n' ' ' | sed 's/ $//'
}

write_table 2883 3884 > "$work/n0.toml"
write_table 3883 2884 > "$work/n1.toml"
start_proxy
start n0
start n1

# Together: three topics, and a client of n1 of which n0 knows.
retain 0 one old
retain 0 two old
retain 0 three old
for node in 0 1; do
    compare "together, n$node" 'one old,three old,two old' ask "$node"
done
listen 1 b-before news
await 0 news b-before

kill -USR1 "$proxy"
echo 'parted'
retain 0 one n0
retain 0 two ''
retain 0 four n0
retain 0 three n0
retain 0 six n0
retain 1 three ''
retain 1 one n1
retain 1 two n1
retain 1 five n1
retain 1 six n1
listen 0 a-amid later
listen 1 b-amid later
for number in 1 2 3 4 5; do
    publish 0 -t news -m "$number"
done
compare 'parted, n0' 'four n0,one n0,six n0,three n0' ask 0
compare 'parted, n1' 'five n1,one n1,six n1,two n1' ask 1
compare 'parted, b-before' '' received b-before

kill -USR2 "$proxy"
await_line dropped "$work/proxy" "$proxy"
echo "healed: the proxy has $(tail -n 1 "$work/proxy") bytes"
# Of two retained messages the one with the greater count stays, and of the same count the one of the greater node (docs/cluster.md).
for node in 0 1; do
    compare "healed, n$node" 'five n1,four n0,one n1,six n1,three n0,two n1' ask "$node"
done
compare 'healed, b-before' '1 2 3 4 5' received b-before
await 0 later a-amid b-amid
publish 0 -t later -m 'from n0'
await 1 later a-amid b-amid
publish 1 -t later -m 'from n1'
for client in a-amid b-amid; do
    compare "healed, $client" 'from n0 from n1' received "$client"
done

# n1 stands still: it answers nobody, and n0 goes on.
listen 0 a-still still
listen 1 b-still still
await 0 still a-still b-still
kill -STOP "${nodes[n1]}"
compare 'n1 stands still' '' ask 1
for number in $(seq "$still"); do
    timeout 5 mosquitto_pub -V 5 -h "$host" -p 1883 -i a-publisher -q 1 -t still -m "$number" || failed=1
    sleep 1
done
compare "meanwhile, a-still" "$(seq -s ' ' "$still")" received a-still
compare "meanwhile, b-still" '' received b-still
kill -CONT "${nodes[n1]}"
compare "afterwards, b-still" "$(seq -s ' ' "$still")" received b-still

if [ "$failed" -eq 0 ]; then
    echo 'both sides agree, and nothing acknowledged was lost'
fi
exit "$failed"
