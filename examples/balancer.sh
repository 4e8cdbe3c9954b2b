#!/usr/bin/env bash
# Runs three nodes behind HAProxy, which passes each client on to its home (`broker balancer`, examples/balancer.cfg), at one address with TLS and without. Clients
# with prefixes, with identifiers that a node gave, without an identifier and with any others connect there; one node is killed; then the home of some clients moves
# by a new table. Prints what came of it, and exits 1 where a client isn't served at its home.
#
#   examples/balancer.sh             runs the program that ./build has built
#   examples/balancer.sh PROGRAM..   runs these words in its place, with `run CONFIG NODE DATABASE --mqtt3` or `balancer CONFIG` behind them
#
# It needs haproxy, openssl and mosquitto's clients: apt-get install haproxy openssl mosquitto-clients. The ports 1880, 1883 to 1885, 2883 to 2885 and
# 8883 must be free.
set -eu

source "$(dirname "${BASH_SOURCE[0]}")/nodes.sh"
run_by "$@"
need haproxy openssl mosquitto_pub mosquitto_sub
options=(--mqtt3)

# The table of this version, by which `m` has its home at this node.
write_table() {
    { echo "version = $1"; cat "$top/examples/cluster.toml"; printf '\n[[home]]\nprefix = "m"\nnode = "%s"\n' "$2"; } > "$work/$1.toml"
}

balance() {
    "${program[@]}" balancer "$work/$1.toml" > "$work/homes.cfg"
}

# Connects as this client by this version of MQTT, and publishes.
served() {
    timeout 20 mosquitto_pub -V "$1" -h "$host" -p 1880 -i "$2" -q 1 -t seen -m "$2" 2> "$work/refused"
}

served_by_tls() {
    timeout 20 mosquitto_pub -V mqttv5 --cafile "$work/cert.pem" --insecure -h "$host" -p 8883 -i "$1" -q 1 -t seen -m "$1" 2> "$work/refused"
}

# Counts how many of three clients without an identifier are served: each by some node, which gives it one.
count_without() {
    local good=0
    for _ in 1 2 3; do
        timeout 20 mosquitto_pub -V mqttv311 -h "$host" -p 1880 -q 1 -t seen -m 'no name' 2> "$work/refused" && good=$((good + 1)) || cat "$work/refused"
    done
    echo "without an identifier: $good of 3 are served"
    [ "$good" -eq 3 ] || failed=1
}

# Counts which of the clients after the first word are served; the first is how they connect.
count() {
    local how=$1 good=0 client
    shift
    for client in "$@"; do
        if [ "$how" = tls ]; then
            served_by_tls "$client" && good=$((good + 1)) || echo "$client, by TLS: $(cat "$work/refused")"
        else
            served "$how" "$client" && good=$((good + 1)) || echo "$client, $how: $(cat "$work/refused")"
        fi
    done
    echo "$how: $good of $# are served at their homes"
    [ "$good" -eq "$#" ] || failed=1
}

write_table 0 n0
write_table 1 n2
openssl req -x509 -newkey rsa:2048 -nodes -days 2 -subj /CN=localhost -keyout "$work/key.pem" -out "$work/cert.pem" 2> "$work/openssl"
cat "$work/cert.pem" "$work/key.pem" > "$work/both.pem"
for node in n0 n1 n2; do
    start_node "$node" "$work/0.toml" "$work/$node.db"
done
balance 0
PORT=1880 CERTIFICATE=$work/both.pem haproxy -W -f "$top/examples/balancer.cfg" -f "$work/homes.cfg" -p "$work/haproxy.pid" > "$work/haproxy" 2>&1 &
for _ in $(seq 100); do
    ! served mqttv5 a-first || break
    sleep 0.1
done

clients=(a-1 b-1 c-1 m-1 auto-0-7 auto-1-7 auto-2-70 auto-3-1 auto-01-2 auto-1-02 x xy xyz pump-17 device/4 "Küche 1" "100" d e f g h i j)
count mqttv5 "${clients[@]}"
count mqttv311 "${clients[@]}"
count tls "${clients[@]}"

mosquitto_sub -V mqttv311 -h "$host" -p 1880 -i b-listens -q 1 -t across -C 1 -W 60 > "$work/across" &
listening=$!
sleep 1
for _ in $(seq 50); do
    timeout 20 mosquitto_pub -V mqttv5 -h "$host" -p 1880 -i c-tells -q 1 -t across -m 'from c to b' 2> "$work/refused" || true
    sleep 0.2
    kill -0 "$listening" 2> "$work/kill" || break
done
wait "$listening" || true
echo "across: $(cat "$work/across")"
[ "$(cat "$work/across")" = 'from c to b' ] || failed=1

count_without

kill_node n1
if served mqttv5 b-1; then
    echo 'n1 is down, and a client of n1 is served'
    failed=1
fi
count mqttv5 a-1 c-1 m-1
sleep 8
count_without
start_node n1 "$work/0.toml" "$work/n1.db"
count mqttv5 b-1

for node in n2 n0 n1; do
    kill_node "$node"
    start_node "$node" "$work/1.toml" "$work/$node.db"
done
balance 1
kill -USR2 "$(head -n 1 "$work/haproxy.pid")"
for _ in $(seq 100); do
    ! served mqttv5 m-1 || break
    sleep 0.1
done
count mqttv5 "${clients[@]}"
exit "$failed"
