#!/usr/bin/env bash
# Moves a client from node n0 to node n1 by a new table of homes, which one node after another takes while it runs, or by a restart, while the client
# receives and a publisher at n2 publishes for it at QoS 1. The client follows the server that it is told. Prints what the client was told, how many
# messages were acknowledged, how many came at which node, and which were lost with the session, and exits 1 where any other was lost. At the end n0
# finds a table that it doesn't take, and says why, once.
#
#   examples/move.sh                         runs the program that ./build has built
#   examples/move.sh PROGRAM..               runs these words in its place, with `run CONFIG NODE DATABASE` behind them
#   examples/move.sh --restart [PROGRAM..]   gives each node the new table by a restart
#
# It needs python3. The ports 1883 to 1885 and 2883 to 2885 must be free.
set -eu

source "$(dirname "${BASH_SOURCE[0]}")/nodes.sh"
restarts=0
if [ "${1:-}" = --restart ]; then
    restarts=1
    shift
fi
run_by "$@"
need python3
client=$top/examples/kill_client.py
follower=$top/examples/move_client.py

# The table of homes of version $1, by which clients whose identifiers begin with `m` have their home at $2.
write_table() {
    local number
    echo "version = $1"
    for number in 0 1 2; do
        cat << TOML

[[node]]
name = "n$number"
address = "$host:$((1883 + number))"
bridge = "$host:$((2883 + number))"
TOML
    done
    cat << TOML

[[home]]
prefix = "m"
node = "$2"

[[home]]
prefix = "k"
node = "n2"
TOML
}

# Puts the table of version $2 where the node $1 looks for it, at once.
put_table() {
    cp "$work/$2.toml" "$work/$1.new"
    mv "$work/$1.new" "$work/$1.toml"
}

# Starts the node $1 with the table of version $2.
start() {
    put_table "$1" "$2"
    start_node "$1" "$work/$1.toml" "$work/$1.db"
    echo "$1 serves by the table of version $2"
}

# Waits until the node $1 has said this of its table.
await_said() {
    local said="broker: $work/$1.toml $2"
    until grep -qxF "$said" "$work/$1.err"; do
        if ! kill -0 "${nodes[$1]}" 2> "$work/kill"; then
            cat "$work/$1.err" >&2
            exit 1
        fi
        sleep 0.05
    done
}

# Gives the node $1 the table of version 1.
hand() {
    if [ "$restarts" -eq 1 ]; then
        kill_node "$1"
        start "$1" 1
    else
        put_table "$1" 1
        await_said "$1" 'is taken: version 1'
        echo "$1 has taken the table of version 1"
    fi
}

# Waits until the client has been told a line that begins so.
await_told() {
    await_line "$1" "$work/told" "$following"
}

# Waits until the command after the first two words answers that it is so, at most $2 tenths of a second; else ends, and says $1.
await() {
    local otherwise=$1 times=$2
    shift 2
    for _ in $(seq "$times"); do
        if "$@"; then
            return
        fi
        sleep 0.1
    done
    echo "$otherwise"
    exit 1
}

have_come() {
    [ "$(lines "$work/came")" -ge "$1" ]
}

# A number has come, or one behind it.
is_past() {
    [ "$(tail -n 1 "$work/came")" -ge "$1" ]
}

await_more() {
    await 'no more messages come' 600 have_come $(($(lines "$work/came") + $1))
}

await_number() {
    await "$1 doesn't come" 1200 is_past "$1"
}

write_table 0 n0 > "$work/0.toml"
write_table 1 n1 > "$work/1.toml"
for node in n0 n1 n2; do
    start "$node" 0
done
: > "$work/came"
: > "$work/told"
: > "$work/acknowledged"
"$follower" 1883 "$work/came" > "$work/told" 2> "$work/told.err" &
following=$!
await_told '1883: subscribed'
"$client" publish 1885 1 0.005 "$work/acknowledged" > "$work/published" &
publishing=$!
await_more 200

# The new home first, then the old one, and then the others.
hand n1
await_more 200
sure=$(lines "$work/acknowledged")
await_number "$sure"
hand n0
await_told '1884: subscribed'
at_home=$(lines "$work/came")
hand n2
await_more 200
again=$(tail -n 1 "$work/came")
await_more 200
kill "$publishing"
wait "$publishing"
await_number "$(tail -n 1 "$work/acknowledged")"

sort "$work/acknowledged" > "$work/all"
sort -u "$work/came" > "$work/found"
# Those before the first that came were published at n2 before the subscription had come there from n0.
first=$(head -n 1 "$work/came")
comm -23 "$work/all" "$work/found" | sort -n | awk -v first="$first" '$1 > first' > "$work/lost"
echo 'the client was told:'
sed 's/^/    /' "$work/told"
echo "$(lines "$work/acknowledged") acknowledged, $at_home came at n0, $(($(lines "$work/came") - at_home)) at n1"
if [ -s "$work/lost" ]; then
    echo "with the session $(lines "$work/lost") were lost, of $(head -n 1 "$work/lost") to $(tail -n 1 "$work/lost")"
fi
# Numbers are acknowledged in order: `sure` of them were, and had come, before n0 had the new table.
if awk -v sure="$sure" -v again="$again" '$1 <= sure || $1 >= again { lost = 1 } END { exit !lost }' "$work/lost"; then
    echo "some were lost that were acknowledged long before n0 had the new table, up to $sure, or once messages came at n1, from $again"
    failed=1
fi
if [ "$failed" -eq 0 ]; then
    echo 'nothing else that was acknowledged was lost'
fi

# A table that isn't one, and one that was taken before; the file is touched while it is there.
if [ "$restarts" -eq 0 ]; then
    echo 'version = ' > "$work/n0.toml"
    await_said n0 'is not taken: line 1 is not TOML'
    sleep 3
    touch "$work/n0.toml"
    sleep 3
    put_table n0 0
    await_said n0 'is not taken: its version 0 is not greater than that of the table in force'
    put_table n0 1
    sleep 3
    said=$(grep -c 'is not taken' "$work/n0.err")
    echo "n0 said of its table:"
    sed "s|$work/||; s/^/    /" "$work/n0.err"
    if [ "$said" -ne 2 ]; then
        echo "n0 said $said times that a table isn't taken, and not twice"
        failed=1
    fi
fi
exit "$failed"
