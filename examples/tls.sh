#!/usr/bin/env bash
# Runs a node behind HAProxy, which ends TLS (examples/tls.cfg), with an authority and certificates that openssl makes here. Clients publish and receive by TLS; those
# that trust another authority, or don't speak TLS, aren't served; the certificate is renewed while a client listens; then only clients with a certificate are let in.
# A line tells what each check came to, and the exit status is 1 where one failed.
#
#   examples/tls.sh             runs the program that ./build has built
#   examples/tls.sh PROGRAM..   runs these words in its place, with `run CONFIG NODE DATABASE` behind them
#
# It needs haproxy, openssl and mosquitto's clients: apt-get install haproxy openssl mosquitto-clients. The ports 1883, 2883 and 8883 must be free.
set -eu

source "$(dirname "${BASH_SOURCE[0]}")/nodes.sh"
PATH=$PATH:/usr/sbin
run_by "$@"
need haproxy openssl mosquitto_pub mosquitto_sub

# An authority of this name: NAME.pem, and its key.
make_authority() {
    openssl req -x509 -newkey rsa:2048 -nodes -days 2 -subj "/CN=$1" -keyout "$work/$1.key" -out "$work/$1.pem" 2>> "$work/openssl"
}

# A certificate of this name, signed by the authority $2 with the extension $3: NAME.pem, its key, and both in NAME.both.
make_certificate() {
    openssl req -newkey rsa:2048 -nodes -subj "/CN=$1" -keyout "$work/$1.key" -out "$work/$1.csr" 2>> "$work/openssl"
    openssl x509 -req -in "$work/$1.csr" -CA "$work/$2.pem" -CAkey "$work/$2.key" -CAcreateserial -days 2 -extfile <(echo "$3") -out "$work/$1.pem" 2>> "$work/openssl"
    cat "$work/$1.pem" "$work/$1.key" > "$work/$1.both"
}

# Writes the server's certificate, and prints its serial number.
renew() {
    make_certificate server authority 'subjectAltName = DNS:localhost, IP:127.0.0.1'
    openssl x509 -noout -serial -in "$work/server.pem"
}

# The serial number of the certificate that clients are shown.
shown() {
    openssl s_client -connect "$host:8883" < "$work/nothing" 2> "$work/refused" | openssl x509 -noout -serial 2>> "$work/refused" || true
}

publish() {
    timeout 20 mosquitto_pub -V 5 -h localhost -p 8883 -q 1 "$@" 2> "$work/refused"
}

served() {
    if publish "$@" -t asked -m x; then
        echo yes
    else
        echo no
    fi
}

# Starts HAProxy in front of the node, with what is set before it, and waits until it shows a certificate.
start_proxy() {
    rm -f "$work/haproxy.pid"
    env "$@" CERTIFICATE="$work/server.both" haproxy -W -f "$top/examples/tls.cfg" -p "$work/haproxy.pid" > "$work/haproxy" 2>&1 &
    proxy=$!
    for _ in $(seq 100); do
        [ -z "$(shown)" ] || return 0
        sleep 0.1
    done
    cat "$work/haproxy" >&2
    exit 1
}

: > "$work/nothing"
make_authority authority
make_authority another
make_certificate sensor authority 'extendedKeyUsage = clientAuth'
first=$(renew)
start_node n0 "$top/examples/one_node.toml" "$work/n0.db"
start_proxy
trusting=(--cafile "$work/authority.pem")

mosquitto_sub -V 5 -h localhost -p 8883 "${trusting[@]}" -q 1 -t 'tls/#' -C 2 -W 60 > "$work/came" 2> "$work/listen" &
listener=$!
sleep 1
publish "${trusting[@]}" -t tls/1 -m 'by TLS'
check 'the authority that signed is trusted' yes "$(served "${trusting[@]}")"
check 'another authority is trusted' no "$(served --cafile "$work/another.pem")"
check 'without TLS' no "$(served)"

check 'the first certificate is shown' "$first" "$(shown)"
second=$(renew)
kill -USR2 "$(head -n 1 "$work/haproxy.pid")"
for _ in $(seq 100); do
    [ "$(shown)" != "$second" ] || break
    sleep 0.1
done
check 'the second certificate is shown' "$second" "$(shown)"
publish "${trusting[@]}" -t tls/2 -m 'after the renewal'
wait "$listener" || true
check 'what came to a client that stayed' 'by TLS,after the renewal' "$(paste -sd, "$work/came")"

kill "$proxy"
wait "$proxy" 2> "$work/kill" || true
start_proxy CLIENTS="$work/authority.pem"
check 'with a certificate, where one is asked for' yes "$(served "${trusting[@]}" --cert "$work/sensor.pem" --key "$work/sensor.key")"
check 'without a certificate, where one is asked for' no "$(served "${trusting[@]}")"
exit "$failed"
