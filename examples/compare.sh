#!/usr/bin/env bash
# Loads this broker and mosquitto in turn, in rounds, by examples/load.c, and prints a line for each load, round and broker.
#
#   examples/compare.sh [ROUNDS] [SECONDS]
#
# It needs gcc, mosquitto and the built program (./build builds it). Each load gets brokers that have just been started: this one
# with a new database, mosquitto once with nothing on disk and once with its state saved at each change.
set -eu
top=$(cd "$(dirname "${BASH_SOURCE[0]}")/.." && pwd)
rounds=${1:-3}
seconds=${2:-2}
program=${BROKER:-$top/dist/broker}
room=$(mktemp -d)
server=
trap '[ -z "$server" ] || kill "$server" 2> "$room/killed" || :; rm -rf "$room"' EXIT
gcc -O2 -pthread -o "$room/load" "$top/examples/load.c"
ulimit -n 20000

cat > "$room/one.toml" << 'TOML'
[[node]]
name = "n0"
address = "127.0.0.1:18831"
bridge = "127.0.0.1:18832"
TOML
cat > "$room/plain.conf" << 'CONF'
user root
listener 18833 127.0.0.1
allow_anonymous true
max_queued_messages 100000
CONF
cat "$room/plain.conf" - > "$room/saved.conf" << CONF
persistence true
persistence_location $room/
autosave_interval 1
autosave_on_changes true
CONF

# Starts a broker, and waits until it takes clients.
start() {
    case $1 in
    ours) rm -f "$room"/n0.db*; "$program" run "$room/one.toml" n0 "$room/n0.db" > "$room/said" 2>&1 & port=18831 ;;
    *) rm -f "$room/mosquitto.db"; mosquitto -c "$room/$1.conf" > "$room/said" 2>&1 & port=18833 ;;
    esac
    server=$!
    for _ in $(seq 100); do
        (exec 3<> "/dev/tcp/127.0.0.1/$port") 2> "$room/dialled" && return
        sleep 0.05
    done
    cat "$room/said" >&2
    exit 1
}

stop() {
    kill "$server"
    wait "$server" 2> "$room/killed" || :
    server=
}

load() {
    local name=$1 round=$2
    shift 2
    for broker in ${brokers:-ours plain saved}; do
        start "$broker"
        "$room/load" -p "$port" -m "$server" "$@" | sed "s/^/$name, round $round, $broker: /"
        stop
    done
}

for round in $(seq "$rounds"); do
    load 'QoS 0, 10 x 16' "$round" -n 10 -a 16 -q 0 -s "$seconds"
    load 'QoS 0, 100 x 1' "$round" -n 100 -a 1 -q 0 -s "$seconds"
    load 'QoS 0, 1,000 x 4' "$round" -n 1000 -a 4 -q 0 -s "$seconds"
    load 'QoS 1, 10 x 16' "$round" -n 10 -a 16 -q 1 -s "$seconds"
    load 'QoS 1, 100 x 1' "$round" -n 100 -a 1 -q 1 -s "$seconds"
    load 'QoS 2, 10 x 16' "$round" -n 10 -a 16 -q 2 -s "$seconds"
    load '9,000 idle clients, QoS 0, 10 x 16' "$round" -i 9000 -n 10 -a 16 -q 0 -s "$seconds"
    # what is saved at each of these changes takes minutes
    brokers='ours plain' load '1,000 clients with 20 filters each' "$round" -i 1000 -f 20
    start ours
    before=$(cut -d' ' -f14,15 "/proc/$server/stat")
    sleep 5
    after=$(cut -d' ' -f14,15 "/proc/$server/stat")
    stop
    echo "idle, round $round, ours: ticks of its processor in 5 s, $before before and $after after"
done
