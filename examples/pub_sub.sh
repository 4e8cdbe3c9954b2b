#!/usr/bin/env bash
# Publishes to a broker and receives from it by MQTT 5.0: a retained message, a message at each QoS, and a will.
# Prints what came, and exits 1 where that isn't what was sent.
#
#   examples/pub_sub.sh                     starts one node with an empty database, asks it, and ends it; it runs the program that ./build has built
#   examples/pub_sub.sh PROGRAM..           runs these words in its place, with `run CONFIG NODE DATABASE` behind them
#   examples/pub_sub.sh --at [HOST [PORT]]  asks a broker that runs, at 127.0.0.1 and 1883 where nothing else is given
#
# It needs mosquitto's clients: apt-get install mosquitto-clients. The broker may be any one of MQTT 5.0.
set -eu

source "$(dirname "${BASH_SOURCE[0]}")/nodes.sh"
need mosquitto_pub mosquitto_sub
port=1883
seconds=10

publish() {
    mosquitto_pub -V 5 -h "$host" -p "$port" "$@"
}

# Subscribes in the background, at QoS $2 to the topic $3 and what else is given, and waits until the subscription
# stands: it is one SUBSCRIBE with pub_sub/ready, whose retained message comes after the SUBACK. Each message is a
# line of the file $1: topic, QoS, RETAIN and payload.
listen() {
    local file="$work/$1" qos=$2 topic=$3
    shift 3
    touch "$file"
    mosquitto_sub -V 5 -h "$host" -p "$port" -q "$qos" -t pub_sub/ready -t "$topic" -W "$seconds" \
        -F '%t %q %r %p' "$@" > "$file" 2> "$file.err" &
    listener=$!
    until grep -q '^pub_sub/ready ' "$file"; do
        if ! kill -0 "$listener" 2> "$work/kill"; then
            break
        fi
        sleep 0.1
    done
    if ! grep -q '^pub_sub/ready ' "$file"; then
        cat "$file.err" >&2
        echo "no retained message came" >&2
        exit 1
    fi
}

# Waits for the listener's end, and compares what it got beside pub_sub/ready.
compare() {
    local name=$1 wanted=$2 got
    wait "$listener" || true
    got=$(grep -v '^pub_sub/ready ' "$work/$name" || true)
    if [ "$got" = "$wanted" ]; then
        echo "$name: $got"
    else
        echo "$name: got '$got', wanted '$wanted'"
        failed=1
    fi
}

if [ "${1-}" = --at ]; then
    host=${2-$host}
    port=${3-$port}
else
    run_by "$@"
    start_node n0 "$top/examples/one_node.toml" "$work/n0.db"
    cat "$work/n0"
fi

publish -q 1 -r -t pub_sub/ready -m 'kept'
listen retained 1 pub_sub/none -C 1
echo "retained: $(cat "$work/retained")"
if [ "$(cat "$work/retained")" != 'pub_sub/ready 1 1 kept' ]; then
    echo "retained: wanted 'pub_sub/ready 1 1 kept'"
    failed=1
fi

for qos in 0 1 2; do
    listen "qos$qos" "$qos" "pub_sub/qos$qos" -C 2
    publish -q "$qos" -t "pub_sub/qos$qos" -m "sent at $qos"
    compare "qos$qos" "pub_sub/qos$qos $qos 0 sent at $qos"
done

# A client whose connection is cut leaves its will.
listen cut 0 pub_sub/none --will-topic pub_sub/will --will-qos 1 --will-payload 'left'
cut=$listener
disown "$cut"
listen will 1 pub_sub/will -C 2
kill -9 "$cut"
compare will 'pub_sub/will 1 0 left'

publish -q 1 -r -n -t pub_sub/ready
if [ "$failed" -eq 0 ]; then
    echo 'all came as sent'
fi
exit "$failed"
