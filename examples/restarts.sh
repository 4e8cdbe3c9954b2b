#!/usr/bin/env bash
# What restarts of a node cost its peers: a cluster of three nodes holds many retained messages, and n0 is killed (SIGKILL) and started again, several times. Tells for each
# restart how long it took until all gates were open, how much memory n1 and n2 hold, and the longest turn of each node. It fails where a gate doesn't open.
#
#   examples/restarts.sh              runs the program that ./build has built
#   examples/restarts.sh PROGRAM..    runs these words in its place
#
# TOPICS says how many messages are retained (99,000), RESTARTS how often n0 is started again (15). It needs python3 and curl. The ports 1883 to 1885, 2883 to 2885 and 8083
# to 8085 must be free.
set -eu

source "$(dirname "${BASH_SOURCE[0]}")/nodes.sh"
run_by "$@"
need python3 curl
topics=${TOPICS:-99000}
restarts=${RESTARTS:-15}

# A number of a node's status, by its name.
figure() {
    curl -s -m 10 "http://$(place "$1")/status.json" | python3 -c 'import json, sys; print(json.load(sys.stdin)[sys.argv[1]])' "$2"
}

# What a node's process holds, in megabytes.
memory() {
    awk '/^VmRSS/ { printf "%.1f", $2 / 1024 }' "/proc/${nodes[n$1]}/status"
}

for number in 0 1 2; do
    start_with_status "$number"
done
await_gates 200 0 1 2
python3 - "$host" "$topics" << 'CODE'
import socket, struct, sys

def text(it):
    return struct.pack(">H", len(it)) + it

def packet(kind, rest):
    length, size = b"", len(rest)
    while True:
        size, low = divmod(size, 128)
        length += bytes([low | (128 if size else 0)])
        if not size:
            return bytes([kind]) + length + rest

client = socket.create_connection((sys.argv[1], 1883))
client.sendall(packet(0x10, text(b"MQTT") + b"\x05\x02\0\x3c\0" + text(b"a-publisher")))
client.recv(1024)
for it in range(int(sys.argv[2])):
    client.sendall(packet(0x31, text(b"room/%d/temperature" % it) + b"\0" + b"x" * 100))
client.sendall(b"\xc0\0")
client.recv(1024)
client.sendall(b"\xe0\0")
CODE
for number in 0 1 2; do
    for _ in $(seq 600); do
        [ "$(figure "$number" retained)" -lt "$topics" ] || break
        sleep 0.2
    done
    check "n$number: retained messages" "$topics" "$(figure "$number" retained)"
done
await_gates 200 0 1 2
echo "before: n1 $(memory 1) MB, n2 $(memory 2) MB"
for number in $(seq "$restarts"); do
    kill_node n0
    sleep 1
    began=$(date +%s%N)
    start_with_status 0 > "$work/said"
    await_gates 200 0 1 2
    took=$((($(date +%s%N) - began) / 1000000))
    sleep 2
    echo "restart $number: $took ms; n1 $(memory 1) MB, n2 $(memory 2) MB; longest turns $(figure 0 longest_turn_milliseconds), $(figure 1 longest_turn_milliseconds) and $(figure 2 longest_turn_milliseconds) ms"
done
exit "$failed"
