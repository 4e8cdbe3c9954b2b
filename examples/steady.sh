#!/usr/bin/env bash
# A node that stands still, and a node whose clock is set: no client is cut, and no will is published. A thousand clients with a Keep Alive of two seconds are
# connected; the node is stopped by SIGSTOP for a minute and goes on; then, where faketime is installed, its clock is set by two hours, forwards and back.
#   examples/steady.sh [--clients N] [--seconds N]               runs the broker that ./build has built
#   examples/steady.sh [--clients N] [--seconds N] PROGRAM..     runs these words in its place, with `run CONFIG NODE DATABASE` behind them
set -euo pipefail
source "$(dirname "${BASH_SOURCE[0]}")/nodes.sh"
clients=1000
seconds=60
while [[ "${1:-}" == --* ]]; do
    case "$1" in
        --clients) clients=$2 ;;
        --seconds) seconds=$2 ;;
        *) echo "unknown option $1" >&2; exit 2 ;;
    esac
    shift 2
done
need python3
run_by "$@"
ulimit -n 8192

# The table of one node n0, with its port for clients and that for nodes.
cat > "$work/homes.toml" << TABLE
[[node]]
name = "n0"
address = "$host:18931"
bridge = "$host:18932"
TABLE

# Connects the clients to the node, does what the words say, waits ten seconds, and looks what became of the clients.
through() {
    local name=$1
    shift
    rm -f "$work/go" "$work/end"
    python3 "$top/examples/steady_clients.py" 18931 "$clients" 2 "$work/go" "$work/end" > "$work/told" &
    local told=$!
    until [ -e "$work/go" ]; do
        kill -0 "$told"
        sleep 0.1
    done
    sleep 3
    "$@"
    sleep 10
    touch "$work/end"
    local status=0
    wait "$told" || status=$?
    if [ "$status" -ne 0 ]; then
        failed=1
    fi
    echo "$name: $(cat "$work/told")"
}

pause() {
    kill -STOP "${nodes[n0]}"
    sleep "$seconds"
    kill -CONT "${nodes[n0]}"
}

set_clock() {
    echo "$1" > "$work/clock"
    sleep 5
    echo "+0" > "$work/clock"
    sleep 5
}

start_node n0 "$work/homes.toml" "$work/n0.db"
through "a pause of $seconds seconds" pause
kill "${nodes[n0]}"
wait "${nodes[n0]}" || true
if command -v faketime > "$work/found"; then
    library=$(find /usr/lib -name libfaketime.so.1 | head -n 1)
    echo "+0" > "$work/clock"
    start_node n0 "$work/homes.toml" "$work/n0.db" env "LD_PRELOAD=$library" "FAKETIME_TIMESTAMP_FILE=$work/clock" FAKETIME_NO_CACHE=1 FAKETIME_DONT_FAKE_MONOTONIC=1
    through "a clock two hours ahead, and back" set_clock "+2h"
    through "a clock two hours behind, and forth" set_clock "-2h"
else
    echo "faketime isn't installed: the clock wasn't set"
fi
exit "$failed"
