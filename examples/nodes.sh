# What the scripts beside it have in common, which read it by `source`: `top` is the top of the repository, `work` a folder that is gone at the
# end, `program` the words that run the broker, `options` what a node is given beside its turns, and `nodes` has the process of each node by its
# name. What a script has started ends with it.

top=$(cd "$(dirname "${BASH_SOURCE[0]}")/.." && pwd)
host=127.0.0.1
failed=0
work=$(mktemp -d)
declare -A nodes=()
declare -a options=()

# What is killed here, bash would tell.
clean_up() {
    exec 2> /dev/null
    kill -CONT "${nodes[@]}" || true
    jobs -p | xargs -r kill -9 || true
    wait || true
    rm -rf "$work"
}
trap clean_up EXIT
trap 'exit 130' INT

# The broker is run by these words, or where there are none by `broker` at the top, which runs what ./build has built.
run_by() {
    program=("$top/broker")
    if [ "$#" -gt 0 ]; then
        program=("$@")
    fi
}

# Ends the script where one of these commands isn't installed.
need() {
    local command
    for command in "$@"; do
        if ! command -v "$command" > "$work/found"; then
            echo "$command isn't installed" >&2
            exit 1
        fi
    done
}

# Waits until a line of the file $2 begins with $1, while the process $3 runs.
await_line() {
    until grep -qs "^$1" "$2"; do
        if ! kill -0 "$3" 2> "$work/kill"; then
            cat "$2" "$2.err" >&2
            exit 1
        fi
        sleep 0.05
    done
}

# Starts the node $1 of the table of homes $2 over the database $3, by the words that follow where there are any, and waits until it is ready.
start_node() {
    local name=$1 table=$2 database=$3
    shift 3
    : > "$work/$name"
    "$@" "${program[@]}" run "$table" "$name" "$database" "${options[@]}" > "$work/$name" 2> "$work/$name.err" &
    nodes[$name]=$!
    await_line 'ready ' "$work/$name" "${nodes[$name]}"
}

kill_node() {
    kill -9 "${nodes[$1]}"
    wait "${nodes[$1]}" 2> "$work/kill" || true
}

lines() {
    wc -l < "$1"
}

# Where the node of a number tells its status, if it is started by `start_with_status`.
place() {
    echo "$host:$((8083 + $1))"
}

# Starts the node of a number of examples/cluster.toml, with its status.
start_with_status() {
    options=(--status "$(place "$1")")
    start_node "n$1" "$top/examples/cluster.toml" "$work/n$1.db"
    echo "n$1: $(cat "$work/n$1"), http://$(place "$1")/"
}

# Whether the gate of a node is open: its status code.
gate() {
    curl -s -m 10 -o "$work/gate" -w '%{http_code}' "http://$(place "$1")/caught-up" || true
}

# Waits until the gate of each of these nodes has this code.
await_gates() {
    local code=$1 node
    shift
    for node in "$@"; do
        for _ in $(seq 100); do
            if [ "$(gate "$node")" = "$code" ]; then
                break
            fi
            sleep 0.1
        done
        if [ "$(gate "$node")" != "$code" ]; then
            echo "n$node: its gate isn't $code"
            failed=1
        fi
    done
}

# The middle one of the numbers in the column $2 of the file $1.
middle() {
    cut -d' ' -f"$2" "$1" | sort -n | awk '{ it[NR] = $1 } END { print it[int((NR + 1) / 2)] }'
}

# The middle one of the numbers in the column $3 of the file $1, divided by that of the file $2.
share() {
    awk -v one="$(middle "$1" "$3")" -v other="$(middle "$2" "$3")" 'BEGIN { printf "%.2f", (other > 0 ? one / other : 0) }'
}

# Retains a message at n0, and returns once it is acknowledged.
retain() {
    if ! timeout 60 mosquitto_pub -V 5 -h "$host" -p 1883 -i a-publisher -q 1 -r -t "$1" -m "$2"; then
        echo "$1: it isn't acknowledged"
        exit 1
    fi
}

# Prints whether what came ($3) is what was wanted ($2); if it isn't, the script ends with status 1.
check() {
    if [ "$2" = "$3" ]; then
        echo "$1: as it should be"
    else
        echo "$1: got '$3', wanted '$2'"
        failed=1
    fi
}
