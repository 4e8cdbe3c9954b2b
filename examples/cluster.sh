#!/usr/bin/env bash
# Runs the three nodes of examples/cluster.toml with empty databases, and publishes at one what clients at the others
# receive by MQTT 5.0: plain, shared and retained. One node is killed in between and started again, and then the one
# at which was published. Prints what came, and exits 1 where something acknowledged is lost.
#
#   examples/cluster.sh             runs the program that ./build has built
#   examples/cluster.sh PROGRAM..   runs these words in its place, with `run CONFIG NODE DATABASE` behind them
#
# It needs mosquitto's clients: apt-get install mosquitto-clients. The ports 1883 to 1885 and 2883 to 2885 must be free.
set -eu

source "$(dirname "${BASH_SOURCE[0]}")/nodes.sh"
run_by "$@"
need mosquitto_pub mosquitto_sub
seconds=600

# Starts the node of a name.
start() {
    start_node "$1" "$top/examples/cluster.toml" "$work/$1.db"
    echo "$1: $(cat "$work/$1")"
}

stop() {
    kill_node "$1"
    echo "$1: killed"
}

# Publishes at n0, and returns once it is acknowledged.
publish() {
    mosquitto_pub -V 5 -h "$host" -p 1883 -i a-publisher -q 1 "$@"
}

# Subscribes in the background at node $1, as client $2, to the filter $3. Each message is a line of the file $2: RETAIN
# and payload.
listen() {
    local port=$((1883 + $1)) client=$2 filter=$3
    shift 3
    : > "$work/$client"
    mosquitto_sub -V 5 -h "$host" -p "$port" -i "$client" -q 1 -t "$filter" -W "$seconds" -F '%r %p' "$@" \
        > "$work/$client" 2> "$work/$client.err" &
}

# Publishes to the topic $1 until each of the clients that follow has received something there: then n0 knows of them.
await() {
    local topic=$1 client waits
    shift
    for _ in $(seq 100); do
        publish -t "$topic" -m ready
        sleep 0.1
        waits=0
        for client in "$@"; do
            if ! grep -q ' ready$' "$work/$client"; then
                waits=1
            fi
        done
        if [ "$waits" -eq 0 ]; then
            return
        fi
    done
    echo "$topic: nothing came to some of: $*"
    exit 1
}

# What the clients have received, beside `ready`, in the order of the payloads.
received() {
    local client
    for client in "$@"; do
        grep -v ' ready$' "$work/$client" || true
    done | sort -n -k 2 | tr '\n' ',' | sed 's/,$//'
}

# Waits until what the clients received, together, is what is wanted.
compare() {
    local name=$1 wanted=$2 got
    shift 2
    for _ in $(seq 600); do
        got=$(received "$@")
        if [ "$got" = "$wanted" ]; then
            break
        fi
        sleep 0.1
    done
    if [ "$got" = "$wanted" ]; then
        echo "$name: $got"
    else
        echo "$name: got '$got', wanted '$wanted'"
        failed=1
    fi
}

# So many messages, by number, to a topic.
publish_numbers() {
    local topic=$1 number
    for number in $(seq "$2" "$3"); do
        publish -t "$topic" -m "$number"
    done
}

numbers() {
    seq "$1" "$2" | sed 's/^/0 /' | tr '\n' ',' | sed 's/,$//'
}

for node in n0 n1 n2; do
    start "$node"
done

# A client whose home is elsewhere is told so.
mosquitto_sub -V 5 -h "$host" -p 1883 -i b-lost -t cluster/none -W 5 > "$work/lost" 2>&1 || true
echo "elsewhere: $(cat "$work/lost")"
if ! grep -qi 'use another server' "$work/lost"; then
    failed=1
fi

# Plain and shared subscriptions at the other nodes.
listen 1 b-plain cluster/plain
listen 2 c-plain cluster/plain
listen 1 b-shared '$share/team/cluster/shared'
listen 2 c-shared '$share/team/cluster/shared'
await cluster/plain b-plain c-plain
await cluster/shared b-shared c-shared
publish_numbers cluster/plain 1 5
publish_numbers cluster/shared 1 10
compare 'plain at n1' "$(numbers 1 5)" b-plain
compare 'plain at n2' "$(numbers 1 5)" c-plain
compare 'shared by n1 and n2' "$(numbers 1 10)" b-shared c-shared

# A retained message.
publish -r -t cluster/retained -m 7
sleep 1
listen 2 c-late cluster/retained
compare 'retained at n2' '1 7' c-late

# A session at n1, whose client isn't connected while n1 is down and n0 is killed.
listen 1 b-kept cluster/kept -c -x 3600
kept=$!
await cluster/kept b-kept
kill "$kept"
wait "$kept" 2> "$work/kill" || true
stop n1
publish_numbers cluster/kept 1 10
stop n0
start n0
publish_numbers cluster/kept 11 20
start n1
listen 1 b-kept cluster/kept -c -x 3600
compare 'kept at n1' "$(numbers 1 20)" b-kept

if [ "$failed" -eq 0 ]; then
    echo 'nothing acknowledged was lost'
fi
exit "$failed"
