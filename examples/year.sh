#!/usr/bin/env bash
# Goes through a year with a cluster, as docs/operate.md tells it: three nodes, a backup, a new disk, a node that is drained, one that is added, one whose disk is lost,
# and a cluster that begins anew with what was retained. A line tells what each check came to, and the exit status is 1 where one failed.
#
#   examples/year.sh             runs the program that ./build has built
#   examples/year.sh PROGRAM..   runs these words in its place
#
# It needs mosquitto's clients, curl, xxd and sqlite3: apt-get install mosquitto-clients curl xxd sqlite3. The ports 1883 to 1886, 2883 to 2886 and 8083 to 8086 must be free.
set -eu

source "$(dirname "${BASH_SOURCE[0]}")/nodes.sh"
run_by "$@"
need mosquitto_pub mosquitto_sub curl xxd sqlite3
table=$work/cluster.toml
data=$work/data

# The table of version $1: as many nodes as $2 says, and homes as PREFIX=NODE. It takes the place of the one before at once.
write_table() {
    local number it nodes=$2
    {
        echo "version = $1"
        for number in $(seq 0 $((nodes - 1))); do
            printf '\n[[node]]\nname = "n%s"\naddress = "%s:%s"\nbridge = "%s:%s"\n' "$number" "$host" $((1883 + number)) "$host" $((2883 + number))
        done
        shift 2
        for it in "$@"; do
            printf '\n[[home]]\nprefix = "%s"\nnode = "%s"\n' "${it%=*}" "${it#*=}"
        done
    } > "$work/new.toml"
    mv "$work/new.toml" "$table"
}

# Waits until these nodes say that they go by the table of the version $1.
await_table() {
    local version=$1 number
    shift
    for number in "$@"; do
        await_line "broker: $table is taken: version $version" "$work/n$number.err" "${nodes[n$number]}"
    done
}

# Starts the node of this number with the table of now.
start() {
    options=(--log --status "$(place "$1")")
    start_node "n$1" "$table" "$data/n$1.db"
}

# Stops the node of this number, as `systemctl stop` does, and prints its exit status.
stop() {
    local status=0
    kill "${nodes[n$1]}"
    wait "${nodes[n$1]}" 2> "$work/kill" || status=$?
    echo "$status"
}

restart() {
    stop "$1" > "$work/status"
    start "$1"
}

# Publishes at the node of the number $1 as the client $2.
publish() {
    local number=$1 client=$2
    shift 2
    timeout 20 mosquitto_pub -V 5 -h "$host" -p $((1883 + number)) -i "$client" -q 1 "$@" 2> "$work/refused"
}

served() {
    if publish "$1" "$2" -t asked -m x; then echo yes; else echo no; fi
}

# Whether the log of the node of the number $1 has a line that ends so.
logged() {
    if grep -q "$2\$" "$work/n$1.err"; then echo yes; else echo no; fi
}

# What `check` says of the database $2 as that of the node of the number $1: its first line, and one that it is asked for.
checked() {
    { "${program[@]}" check "$table" "n$1" "$2" 2>&1 || true; } | grep "$3" | head -n 1
}

# The client $2 subscribes at the node of the number $1 for an hour, and goes.
leave() {
    timeout 20 mosquitto_sub -V 5 -h "$host" -p $((1883 + $1)) -i "$2" -c -x 3600 -q 1 -t "$3" -E 2> "$work/refused"
}

# What waits for the client $2 at the node of the number $1 within two seconds, in one line.
fetch() {
    { mosquitto_sub -V 5 -h "$host" -p $((1883 + $1)) -i "$2" -c -x 3600 -q 1 -t "$3" -W 2 -F %p 2> "$work/refused" || true; } | paste -sd,
}

# The value of a metric at the node of this number.
metric() {
    curl -s -m 10 "http://$(place "$1")/metrics" | sed -n "s/^$2 //p"
}

# What is retained at the node of this number, sorted.
retained() {
    { mosquitto_sub -V 5 -h "$host" -p $((1883 + $1)) -i "$2" -t '#' --retained-only -W 2 -F '%x %t' 2> "$work/refused" || true; } | sort
}

three_nodes() {
    write_table 1 3 a=n0 b=n1 c=n2
    for number in 0 1 2; do start "$number"; done
    await_gates 200 0 1 2
    check 'a client at its home' yes "$(served 0 a-1)"
    check 'a client at another node' no "$(served 1 a-1)"
    check 'what its log says' yes "$(logged 1 'client refused 0x9C (Use another server): a-1')"
    leave 0 a-reader 'plant/#'
    for number in 1 2 3; do publish 2 c-writer -t plant/1 -m "$number"; done
    sleep 1
    check 'from n2 to a client of n0' 1,2,3 "$(fetch 0 a-reader 'plant/#')"
    if mosquitto_pub -h "$host" -p 1883 -i a-old -t x -m x 2> "$work/refused"; then failed=1; fi
    check 'MQTT 3.1.1 without --mqtt3' yes "$(logged 0 'client refused 0x84 (MQTT 3.1.1; --mqtt3 serves it)')"
}

backup() {
    publish 0 a-1 -r -t kept/1 -m one
    leave 0 a-reader 'plant/#'
    publish 0 a-1 -t plant/2 -m 'before the backup'
    check 'check, while it runs' 'broker: opening the database '"$data"'/n0.db: a program that runs has it open' "$(checked 0 "$data/n0.db" opening)"
    if sqlite3 "$data/n0.db" ".backup $work/sqlite.db" 2> "$work/sqlite"; then failed=1; fi
    check '.backup of sqlite3, while it runs' yes "$(if grep -q 'database is locked' "$work/sqlite"; then echo yes; else cat "$work/sqlite"; fi)"
    stop 0 > "$work/status"
    check 'how a node ends' 143 "$(cat "$work/status")"
    mkdir "$work/backup"
    cp -p "$data/n0.db" "$data/n0.db-wal" "$work/backup/"
    start 0
    check 'check of the copy' 'node n0 number 0' "$(checked 0 "$work/backup/n0.db" '^node')"
    check 'what it has' 'retained 1' "$(checked 0 "$work/backup/n0.db" '^retained')"
    cp "$work/backup/n0.db" "$work/alone.db"
    check 'a copy without its log' yes "$(if checked 0 "$work/alone.db" rows | grep -q 'it has no rows'; then echo yes; else echo no; fi)"
    await_gates 200 0 1 2
    check 'what waited meanwhile' 'before the backup' "$(fetch 0 a-reader 'plant/#')"
}

new_disk() {
    leave 0 a-reader 'plant/#'
    stop 0 > "$work/status"
    publish 2 c-writer -t plant/3 -m 'while the disk is changed'
    mkdir "$work/disk"
    cp -p "$data/n0.db" "$data/n0.db-wal" "$work/disk/"
    rm "$data/n0.db" "$data/n0.db-wal"
    check 'check of the new disk' 'retained 1' "$(checked 0 "$work/disk/n0.db" '^retained')"
    mv "$work/disk"/* "$data/"
    start 0
    await_gates 200 0 1 2
    check 'what waited at the others' 'while the disk is changed' "$(fetch 0 a-reader 'plant/#')"
}

drain() {
    leave 1 b-reader 'plant/#'
    write_table 2 3 a=n0 b=n2 c=n2
    await_table 2 0 1 2
    check 'sessions at the node that is drained' 0 "$(metric 1 mqtt_sessions)"
    check 'its clients at their new home' yes "$(served 2 b-1)"
    check 'its clients at their old home' no "$(served 1 b-1)"
    stop 1 > "$work/status"
    sleep 1
    check 'the gate, while it is stopped' 503 "$(gate 0)"
    check 'the others have served on' yes "$(served 0 a-1)"
    start 1
    await_gates 200 0 1 2
}

add() {
    leave 0 a-reader 'plant/#'
    write_table 3 4 a=n0 b=n2 c=n2 d=n3
    start 3
    await_line "broker: $table is not taken: it has 4 nodes" "$work/n0.err" "${nodes[n0]}"
    for number in 2 1 0; do restart "$number"; done
    await_gates 200 0 1 2 3
    leave 3 d-reader 'plant/#'
    sleep 1
    publish 0 a-1 -t plant/4 -m 'for all four'
    sleep 1
    check 'a client of the new node' 'for all four' "$(fetch 3 d-reader 'plant/#')"
    check 'a client of an old one' 'for all four' "$(fetch 0 a-reader 'plant/#')"
    check 'what is retained there' "$(retained 0 a-look)" "$(retained 3 d-look)"
}

lose_disk() {
    kill_node n0
    rm "$data"/n0.db*
    check 'its clients have no other node' no "$(served 3 a-1)"
    write_table 4 4 a=n3 b=n2 c=n2 d=n3
    await_table 4 1 2 3
    leave 3 a-reader 'plant/#'
    sleep 1
    publish 2 c-writer -t plant/5 -m 'after the loss'
    sleep 1
    check 'its clients at their new home' 'after the loss' "$(fetch 3 a-reader 'plant/#')"
    check 'the gate says why' yes "$(if curl -s "http://$(place 3)/caught-up" | grep -q '^n0: not linked'; then echo yes; else echo no; fi)"
    check 'who else is in the way' 2 "$(curl -s "http://$(place 3)/caught-up" | wc -l)"
    check 'what was retained' '6f6e65 kept/1' "$(retained 3 a-look)"
}

begin_anew() {
    retained 3 a-save > "$work/retained"
    for number in 1 2 3; do stop "$number" > "$work/status"; done
    cp "$data/n1.db" "$data/n1.db-wal" "$work/disk/"
    write_table 5 3 a=n0 b=n1 c=n2
    check 'old files and a table of fewer nodes' yes "$(if checked 1 "$work/disk/n1.db" rows | grep -q 'no node of the table has such rows'; then echo yes; else echo no; fi)"
    rm "$data"/*
    for number in 0 1 2; do start "$number"; done
    await_gates 200 0 1 2
    while read -r payload topic; do
        printf %s "$payload" | xxd -r -p | publish 0 a-save -r -t "$topic" -s
    done < "$work/retained"
    sleep 1
    check 'what is retained at n2' '6f6e65 kept/1' "$(retained 2 c-look)"
}

mkdir -m 700 "$data"
for step in three_nodes backup new_disk drain add lose_disk begin_anew; do
    echo "-- ${step//_/ }"
    "$step"
done
exit "$failed"
