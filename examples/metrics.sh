#!/usr/bin/env bash
# Runs the three nodes of examples/cluster.toml with empty databases, each with its status told at a port of its own, and a Prometheus that asks
# each for its metrics once a second. Prints what Prometheus has of them, by its HTTP API, as they come up, while one is killed and a message is
# retained that it lacks, and once it is back. Exits 1 where a step doesn't come to be seen.
#
#   examples/metrics.sh             runs the program that ./build has built
#   examples/metrics.sh PROGRAM..   runs these words in its place, with `run CONFIG NODE DATABASE --status ADDRESS` behind them
#
# What is wanted is waited for 60 seconds, or as many as PATIENCE says. It needs curl, mosquitto's clients and Prometheus: apt-get install curl
# mosquitto-clients prometheus. The ports 1883 to 1885, 2883 to 2885, 8083 to 8085 and 9190 must be free.
set -eu

source "$(dirname "${BASH_SOURCE[0]}")/nodes.sh"
run_by "$@"
need curl mosquitto_pub prometheus
watcher=$host:9190
patience=${PATIENCE:-60}

write_configuration() {
    cat << YAML
global:
  scrape_interval: 1s
  scrape_timeout: 1s
scrape_configs:
  - job_name: mqtt
    static_configs:
      - targets: ["$(place 0)", "$(place 1)", "$(place 2)"]
YAML
}

# Starts a Prometheus with its storage beside its configuration, and waits until it answers.
start_prometheus() {
    local process end=$((SECONDS + patience))
    write_configuration > "$work/prometheus.yml"
    prometheus --config.file "$work/prometheus.yml" --storage.tsdb.path "$work/prometheus" --web.listen-address "$watcher" \
        > "$work/prometheus.log" 2>&1 &
    process=$!
    until curl -s -f -m 10 -o "$work/ready" "http://$watcher/-/ready"; do
        if [ "$SECONDS" -gt "$end" ] || ! kill -0 "$process" 2> "$work/kill"; then
            cat "$work/prometheus.log" >&2
            exit 1
        fi
        sleep 0.1
    done
    echo "Prometheus: http://$watcher/"
}

# What Prometheus has now of a metric, with these further labels where there are any, at n0, n1 and n2: its value, or - where it has none.
values() {
    local node value
    for node in 0 1 2; do
        value=$(curl -s -m 10 -G "http://$watcher/api/v1/query" --data-urlencode "query=$1{instance=\"$(place "$node")\"${2-}}" |
            sed -n 's/.*"value":\[[^,]*,"\([^"]*\)"\].*/\1/p')
        echo "${value:--}"
    done | paste -s -d ' '
}

# Waits until Prometheus has the values $1 of a metric.
await_values() {
    local wanted=$1 end=$((SECONDS + patience)) got
    shift
    until got=$(values "$@") && [ "$got" = "$wanted" ]; do
        if [ "$SECONDS" -gt "$end" ]; then
            echo "$1: $got at n0, n1 and n2, and not $wanted within $patience seconds"
            exit 1
        fi
        sleep 0.2
    done
    echo "$1: $got"
}

for node in 0 1 2; do
    start_with_status "$node"
done
start_prometheus
echo '--- all run, and a message is retained: values at n0, n1 and n2'
await_values '1 1 1' up
retain metrics/first 1
await_values '1 1 1' mqtt_retained_messages
await_values '1 1 1' mqtt_cluster_caught_up

kill_node n2
echo '--- n2 is killed, and another message is retained'
await_values '1 1 0' up
retain metrics/second 2
await_values '2 2 -' mqtt_retained_messages
await_values '1 1 -' mqtt_cluster_peer_lacking_operations ',peer="n2"'
await_values '0 0 -' mqtt_cluster_caught_up

start_with_status 2
echo '--- n2 is back'
await_values '1 1 1' up
await_values '2 2 2' mqtt_retained_messages
await_values '1 1 1' mqtt_cluster_caught_up
echo 'Prometheus has seen it go and come back'
