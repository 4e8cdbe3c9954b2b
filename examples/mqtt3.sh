#!/usr/bin/env bash
# Clients of MQTT 3.1.1 and 3.1 beside clients of MQTT 5.0, at a node that is started with --mqtt3. A line tells what each check came to, and the
# exit status is 1 where one failed.
#
#   examples/mqtt3.sh [PROGRAM ..]   starts a node with an empty database by these words, or by the launcher, and ends it
#
# It needs mosquitto and mosquitto's clients: apt-get install mosquitto mosquitto-clients. Clients of Paho for Python (python3-paho-mqtt), of Paho for C
# (libpaho-mqtt-dev and a compiler) and of MQTT.js (node-mqtt) are asked too where they are installed.
set -u

source "$(dirname "${BASH_SOURCE[0]}")/nodes.sh"
PATH=$PATH:/usr/sbin
need mosquitto mosquitto_pub mosquitto_sub python3
run_by "$@"

free_port() {
    python3 -c 'import socket; s = socket.socket(); s.bind(("127.0.0.1", 0)); print(s.getsockname()[1])'
}

# Starts a node with these options at a free port.
start_at_free_port() {
    port=$(free_port)
    printf '[[node]]\nname = "n0"\naddress = "%s:%s"\nbridge = "%s:%s"\n' "$host" "$port" "$host" "$(free_port)" > "$work/homes.toml"
    options=("$@")
    rm -f "$work"/n0.db*
    start_node n0 "$work/homes.toml" "$work/n0.db"
}

publish() {
    timeout 20 mosquitto_pub -h "$host" -p "$port" "$@" 2>> "$work/publish.err"
}

# Subscribes in the background, and waits until the subscription stands. Each message is a line of the file $1: topic, QoS, RETAIN and payload.
declare -A listeners=()
listen() {
    local name=$1 file="$work/$1"
    shift
    : > "$file"
    stdbuf -oL timeout 60 mosquitto_sub -h "$host" -p "$port" -d -F 'MESSAGE %t %q %r %p' "$@" > "$file" 2>&1 &
    listener=$!
    listeners[$name]=$listener
    until grep -q 'Subscribed' "$file" || ! kill -0 "$listener" 2> "$work/kill"; do
        sleep 0.05
    done
}

# What came to a listener, in one line.
got() {
    sed -n 's/^MESSAGE //p' "$work/$1" | paste -sd, -
}

# Waits until so many messages have come to these listeners, all in all, or 30 seconds have passed, and then one second for more; and ends them.
hear() {
    local count=$1 name
    shift
    for _ in $(seq 300); do
        [ "$(cat "${@/#/$work/}" | grep -c '^MESSAGE')" -lt "$count" ] || break
        sleep 0.1
    done
    sleep 1
    for name in "$@"; do
        kill "${listeners[$name]}" 2> "$work/kill"
        wait "${listeners[$name]}" 2> "$work/kill"
    done
}

each_qos() {
    local to=$1 from=$2 qos
    for qos in 0 1 2; do
        listen qos -V "$to" -q "$qos" -t "qos/$qos" -C 3
        for text in a b c; do
            publish -V "$from" -q "$qos" -t "qos/$qos" -m "$text"
        done
        wait "$listener"
        check "$from to $to at QoS $qos" "qos/$qos $qos 0 a,qos/$qos $qos 0 b,qos/$qos $qos 0 c" "$(got qos)"
    done
}

# 500,000 bytes.
large() {
    head -c 500000 /dev/urandom > "$work/large"
    timeout 20 mosquitto_sub -V "$1" -h "$host" -p "$port" -q 1 -N -C 1 -t large > "$work/large.got" &
    listener=$!
    # what is published before the subscription stands isn't its
    for _ in $(seq 20); do
        publish -V "$1" -q 1 -t large -f "$work/large"
        sleep 0.5
        kill -0 "$listener" 2> "$work/kill" || break
    done
    wait "$listener"
    check "$1, 500,000 bytes" same "$(cmp -s "$work/large" "$work/large.got" && echo same)"
}

retained() {
    publish -V "$1" -r -q 1 -t retained/x -m kept
    listen retained -V "$1" -q 1 -t 'retained/#' -C 1
    wait "$listener"
    check "$1, a retained message" "retained/x 1 1 kept" "$(got retained)"
    publish -V "$1" -r -n -q 1 -t retained/x
    listen retained -V "$1" -q 1 -t 'retained/#'
    hear 0 retained
    check "$1, a retained message that is cleared" "" "$(got retained)"
}

# A will, of a client that is killed.
will() {
    local watcher
    listen will -V 5 -q 1 -t wills -C 1
    watcher=$listener
    listen doomed -V "$1" -i doomed -t nothing --will-topic wills --will-qos 1 --will-payload gone
    kill -9 "$(pgrep -P "$listener" mosquitto_sub)"
    wait "$listener" 2> "$work/kill"
    wait "$watcher"
    check "$1, a will" "wills 1 0 gone" "$(got will)"
}

# Messages that wait for a session.
session() {
    listen session -V "$1" -c -i keeper -q 2 -t session -E
    wait "$listener"
    publish -V 5 -q 1 -t session -m one
    publish -V 5 -q 2 -t session -m two
    listen session -V "$1" -c -i keeper -q 2 -t session
    hear 2 session
    check "$1, a session" "session 1 0 one,session 2 0 two" "$(got session)"
}

# What asks for a session that lasts, in a version.
lasting() {
    if [ "$1" = 5 ]; then
        echo -c -x 100
    else
        echo -c
    fi
}

# A client of the version $2 takes over the session of a client of the version $1: it gets what was subscribed to before. That one stands still, so that it
# doesn't connect again.
takeover() {
    local before
    # shellcheck disable=SC2046
    listen before -V "$1" $(lasting "$1") -i mover -q 1 -t moved
    before=$listener
    kill -STOP "$(pgrep -P "$before" mosquitto_sub)"
    # shellcheck disable=SC2046
    listen after -V "$2" $(lasting "$2") -i mover -q 1 -t moved/too -C 1
    kill -9 "$(pgrep -P "$before" mosquitto_sub)"
    wait "$before" 2> "$work/kill"
    publish -V "$1" -q 1 -t moved -m one
    wait "$listener"
    check "$1, whose session a client of $2 takes over" "moved 1 0 one" "$(got after)"
}

# A shared group with a client of each of two versions.
shared() {
    listen first -V "$1" -q 1 -t '$share/group/shared'
    listen second -V 5 -q 1 -t '$share/group/shared'
    for text in 0 1 2 3 4 5 6 7 8 9; do
        publish -V "$1" -q 1 -t shared -m "$text"
    done
    hear 10 first second
    check "$1, shared with 5" 0123456789 "$(sed -n 's/^MESSAGE .* //p' "$work/first" "$work/second" | sort | tr -d '\n')"
}

# Mosquitto as a bridge of this version, which says that it is one or doesn't: messages go over once, both ways.
bridge() {
    local far near=$port version=$1 says=$2 process come=2
    far=$(free_port)
    cat > "$work/bridge.conf" <<EOF
listener $far $host
allow_anonymous true
user root
log_type all
connection bridge-$version-$says
address $host:$near
bridge_protocol_version $version
try_private $says
topic out/# out 2
topic in/# in 2
topic both/# both 1
restart_timeout 1
EOF
    mosquitto -c "$work/bridge.conf" > "$work/bridge.log" 2>&1 &
    process=$!
    until [ "$(grep -c 'Received SUBACK' "$work/bridge.log")" -ge 2 ] || ! kill -0 "$process" 2> "$work/kill"; do
        sleep 0.1
    done
    listen out -V 5 -q 2 -t 'out/#'
    listen both -V 5 -q 2 -t 'both/#'
    port=$far
    listen in -V 5 -q 2 -t 'in/#'
    publish -V 5 -q 2 -t out/x -m over
    # one that doesn't say that it is a bridge gets its own messages back
    if [ "$says" = true ]; then
        publish -V mqttv311 -q 1 -t both/x -m far
        come=3
    fi
    port=$near
    publish -V 5 -q 2 -t in/x -m back
    hear "$come" out both in
    check "a bridge of $version (try_private $says), to the node" "out/x 2 0 over" "$(got out)"
    check "a bridge of $version (try_private $says), from the node" "in/x 2 0 back" "$(got in)"
    if [ "$says" = true ]; then
        check "a bridge of $version, both ways without a loop" "both/x 1 0 far" "$(got both)"
    fi
    kill "$process"
    wait "$process" 2> "$work/kill"
}

# A session of Clean Session 0 that nobody is connected to lasts as long as --longest-expiry says: after $2 seconds so many messages ($3) wait, these.
bounded_session() {
    listen bounded -V "$1" -c -i "bounded-$1" -q 1 -t bounded -E
    wait "$listener"
    sleep "$2"
    publish -V 5 -q 1 -t bounded -m waiting
    listen bounded -V "$1" -c -i "bounded-$1" -q 1 -t other
    hear "$3" bounded
    check "$1, a session after $2 seconds where --longest-expiry is 8" "$4" "$(got bounded)"
}

start_at_free_port --log
publish -V mqttv311 -t x -m x && taken=taken || taken=refused
check "without --mqtt3 a client of 3.1.1 is refused" refused "$taken"
publish -V mqttv31 -t x -m x
sleep 1
check "a log names its version" "refused 0x84 (MQTT 3.1.1; --mqtt3 serves it),refused 0x84 (MQTT 3.1; --mqtt3 serves it)" \
    "$(sed -n 's/^[0-9]* client \(refused 0x84 .*\)/\1/p' "$work/n0.err" | LC_ALL=C sort -u | paste -sd, -)"
kill_node n0

start_at_free_port --mqtt3 --longest-expiry 8
for version in mqttv311 mqttv31; do
    bounded_session "$version" 1 1 "bounded 1 0 waiting"
    bounded_session "$version" 12 0 ""
done
kill_node n0

start_at_free_port --mqtt3 --log
for version in mqttv311 mqttv31; do
    for from in mqttv311 mqttv31 5; do
        each_qos "$version" "$from"
    done
    each_qos 5 "$version"
    large "$version"
    retained "$version"
    will "$version"
    session "$version"
    takeover "$version" 5
    takeover 5 "$version"
    shared "$version"
    for says in true false; do
        bridge "$version" "$says"
    done
done
if /usr/bin/python3 -c 'import paho.mqtt.client' 2> "$work/kill"; then
    timeout 900 /usr/bin/python3 "$top/examples/mqtt3_paho.py" "$port" || failed=1
fi
if [ -f /usr/include/MQTTClient.h ] && command -v cc > "$work/found"; then
    cc -o "$work/mqtt3_paho" "$top/examples/mqtt3_paho.c" -lpaho-mqtt3c || failed=1
    timeout 900 "$work/mqtt3_paho" "$host" "$port" || failed=1
fi
if [ -d /usr/share/nodejs/mqtt ] && command -v node > "$work/found"; then
    NODE_PATH=/usr/share/nodejs timeout 900 node "$top/examples/mqtt3_node.js" "$port" || failed=1
fi
kill -0 "${nodes[n0]}" 2> "$work/kill"
check "the node still runs" 0 "$?"
exit "$failed"
