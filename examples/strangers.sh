#!/usr/bin/env bash
# Begins links to a node from an address that no bridge of its table has (127.0.0.2), and from one that has (127.0.0.1). The first are closed, counted and told; the last stays. With
# --bridge-from-anywhere all stay.
#
#   examples/strangers.sh              runs the program that ./build has built
#   examples/strangers.sh PROGRAM..    runs these words in its place
#
# It needs python3 and curl, and a system that takes 127.0.0.2 as its own, as Linux does. The ports 1883, 2883 and 8083 must be free.
set -eu

source "$(dirname "${BASH_SOURCE[0]}")/nodes.sh"
run_by "$@"
need python3 curl

# Begins a link to n0 from an address, says Hello for n1, and tells whether it stays for a second.
link_from() {
    python3 - "$1" << 'CODE'
import socket, sys
link = socket.socket()
link.bind((sys.argv[1], 0))
link.settimeout(1)
try:
    link.connect(("127.0.0.1", 2883))
    link.sendall(b"\0\0\0\x1b\x07\0\x01\0\0\0\x01" + bytes(20))
    print("closed" if not link.recv(1) else "stays")
except TimeoutError:
    print("stays")
except OSError:
    print("closed")
CODE
}

refused() {
    curl -s -m 10 "http://$(place 0)/status.json" | python3 -c 'import json, sys; print(json.load(sys.stdin)["not_allowed"]["links"])'
}

start_with_status 0
check 'a link from 127.0.0.2' closed "$(link_from 127.0.0.2)"
check 'another one' closed "$(link_from 127.0.0.2)"
check 'a link from 127.0.0.1' stays "$(link_from 127.0.0.1)"
check 'links that were closed' 2 "$(refused)"
check 'lines about them' 1 "$(grep -c '^broker: a link from 127.0.0.2 was closed: ' "$work/n0.err")"
kill_node n0
options=(--status "$(place 0)" --bridge-from-anywhere)
start_node n0 "$top/examples/cluster.toml" "$work/n0.db"
check 'with --bridge-from-anywhere, a link from 127.0.0.2' stays "$(link_from 127.0.0.2)"
check 'links that were closed' 0 "$(refused)"
exit "$failed"
