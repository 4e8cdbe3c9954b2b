#!/usr/bin/env bash
# A client that comes back to a long queue gets all of it, in order and each message once, with the defaults of its library: mosquitto_sub, Paho for
# Python and MQTT.js. The queue is longer than the 16,777,216 bytes of unsent packets at which a socket is closed. A line tells what each client came to,
# and the exit status is 1 where one failed.
#
#   [MESSAGES=60000] [BYTES=10000] examples/long_queue.sh [PROGRAM ..]   starts a node with an empty database by these words, or by the launcher, and ends it
#
# It needs mosquitto's clients: apt-get install mosquitto-clients. Paho for Python (python3-paho-mqtt) and MQTT.js (node-mqtt) are asked too where they are
# installed.
set -u

source "$(dirname "${BASH_SOURCE[0]}")/nodes.sh"
need mosquitto_pub mosquitto_sub python3
run_by "$@"
messages=${MESSAGES:-60000}
bytes=${BYTES:-10000}
here=$(dirname "${BASH_SOURCE[0]}")

# Payloads of so many bytes, a line each, which begin with their number.
payloads() {
    python3 -c 'import sys
for number in range(int(sys.argv[1])):
    print("%07d %s" % (number, "." * (int(sys.argv[2]) - 8)))' "$messages" "$bytes"
}

# The most memory that the node has had, in megabytes.
peak() {
    awk '/^VmHWM/ { print int($2 / 1024) }' "/proc/${nodes[n0]}/status"
}

# Makes a session of this client, which subscribes and leaves.
subscribes() {
    timeout 60 mosquitto_sub -V 5 -h "$host" -p 1883 -i "$1" -c -x 4294967295 -q 1 -t "long/$1" -E
}

# What mosquitto_sub, Paho and MQTT.js print of each message is the number with which it begins.
by_mosquitto() {
    timeout 600 mosquitto_sub -V 5 -h "$host" -p 1883 -i "$1" -c -x 4294967295 -q 1 -t "long/$1" -C "$messages" | cut -c1-7
}

by_paho() {
    timeout 600 python3 "$here/long_queue.py" 1883 "$1" "$messages"
}

by_node() {
    NODE_PATH=${NODE_PATH:-/usr/share/nodejs} timeout 600 node "$here/long_queue.js" 1883 "$1" "$messages"
}

tries() {
    local client=$1 reads=$2 since
    subscribes "$client"
    if ! payloads | timeout 900 mosquitto_pub -V 5 -h "$host" -p 1883 -q 1 -l -t "long/$client"; then
        echo "$client: the messages weren't published"
        failed=1
        return
    fi
    since=$SECONDS
    "$reads" "$client" > "$work/$client"
    if cmp -s "$work/$client" <(seq -f '%07g' 0 $((messages - 1))); then
        echo "$client: $messages messages of $bytes bytes, in order, each once, in $((SECONDS - since)) s; the node's peak is $(peak) MB"
    else
        echo "$client: $(lines "$work/$client") of $messages messages came, or not in order"
        failed=1
    fi
}

rm -f "$work"/n0.db*
start_node n0 "$top/examples/one_node.toml" "$work/n0.db"
tries mosquitto by_mosquitto
if python3 -c 'import paho.mqtt.client' 2> "$work/found"; then
    tries paho by_paho
fi
if command -v node > "$work/found" && NODE_PATH=${NODE_PATH:-/usr/share/nodejs} node -e 'require("mqtt")' 2> "$work/found"; then
    tries node by_node
fi
exit "$failed"
