#!/usr/bin/env bash
# Starts a node that can't be served, in each way that an operator meets: a table of homes that is none, a database that isn't the node's, an address where nobody
# can wait. Each run has to end with status 3 where it is the table, and else with 1, and to say on standard error what was tried and what was found. Then it asks
# `check` about the same databases, which changes none. A line tells what each check came to, and the exit status is 1 where one failed.
#
#   examples/causes.sh             runs the program that ./build has built
#   examples/causes.sh PROGRAM..   runs these words in its place, with `serve CONFIG NODE DATABASE` behind them
#
# It needs python3 and sqlite3: apt-get install python3 sqlite3.
set -eu

source "$(dirname "${BASH_SOURCE[0]}")/nodes.sh"
run_by "$@"
need python3 sqlite3
cd "$work"

# A table of the nodes n0 and n1: n0 at the address $2 and the bridge $3.
write_homes() {
    {
        printf '[[node]]\nname = "n0"\naddress = "%s"\nbridge = "%s"\n' "$2" "$3"
        printf '[[node]]\nname = "n1"\naddress = "%s:0"\nbridge = "%s:0"\n' "$host" "$host"
    } > "$1"
}

# What a run of one turn says on standard error, with its exit status before it.
said() {
    local status=0
    timeout 20 "${program[@]}" serve "$@" --turns 1 > out 2> err || status=$?
    echo "$status $(cat err)"
}

# Checks that a run by the words behind $2 ends with the status of a fault of that kind, and says $2.
ends_with() {
    local name=$1 wanted=$2
    shift 2
    check "$name" "$(status_of "$wanted") $wanted" "$(said "$@")"
}

status_of() {
    case $1 in
    'broker: configuration:'*) echo 3 ;;
    *) echo 1 ;;
    esac
}

any=$host:0
write_homes homes.toml "$any" "$any"

printf '[[node]]\nname = \n' > flawed.toml
ends_with 'a table that is no TOML' $'broker: configuration: Syntax\nbroker: reading flawed.toml: line 2 is not TOML' flawed.toml n0 no.db
printf '[[node]]\nname = 1\n' > flawed.toml
ends_with 'TOML that is no table' $'broker: configuration: Syntax\nbroker: reading flawed.toml: it is TOML, but no table of homes' flawed.toml n0 no.db
: > flawed.toml
ends_with 'a table without a node' $'broker: configuration: NoNodes\nbroker: reading flawed.toml: it names no node' flawed.toml n0 no.db
ends_with 'a node that the table does not name' $'broker: configuration: UnknownNode\nbroker: reading homes.toml: it does not name the node n2' homes.toml n2 no.db
ends_with 'a table that is not there' $'broker: configuration: Syntax\nbroker: reading no.toml: no such file or folder' no.toml n0 no.db

check 'a node over a new database' '0 ' "$(said homes.toml n0 own.db)"
echo 'no database, but a text of some length' > text.db
sqlite3 foreign.db 'CREATE TABLE other (x INTEGER)'
rows=$'broker: run: Rows\nbroker:'
ends_with 'a database in no folder' "$rows opening the database nowhere/no.db: no such file or folder" homes.toml n0 nowhere/no.db
ends_with 'a folder' "$rows opening the database .: it is a folder" homes.toml n0 .
ends_with 'a text' "$rows opening the database text.db: it is no database, or damaged" homes.toml n0 text.db
ends_with 'a database of another program' "$rows opening the database foreign.db: it is the database of another program" homes.toml n0 foreign.db
ends_with 'rows of another node' "$rows the rows in own.db: they are those of node 0 of the table, counted from 0" homes.toml n1 own.db

# Serves n0 over open.db until it is killed.
serve_on() {
    "${program[@]}" run homes.toml n0 open.db > node 2> node.err &
    nodes[n0]=$!
    await_line 'ready ' node "${nodes[n0]}"
}
serve_on
ends_with 'a database that is open' "$rows opening the database open.db: a program that runs has it open" homes.toml n0 open.db
kill_node n0

# Waits at a port until the script ends, and says which.
python3 -c '
import socket, sys, time
it = socket.socket()
it.bind((sys.argv[1], 0))
it.listen()
print("port", it.getsockname()[1], flush=True)
time.sleep(600)' "$host" > listener 2> listener.err &
await_line 'port ' listener "$!"
taken=$host:$(cut -d ' ' -f 2 listener)
socket=$'broker: run: Socket\nbroker: waiting at'
write_homes taken.toml "$taken" "$any"
ends_with 'an address in use' "$socket $taken: the address is in use" taken.toml n0 taken.db
write_homes taken.toml localhost:1883 "$any"
ends_with 'an address that is none' "$socket localhost:1883: it is no IP address with a port" taken.toml n0 taken.db
write_homes taken.toml "$any" 192.0.2.1:2883
ends_with 'an address of another machine' "$socket 192.0.2.1:2883: the address is none of this machine" taken.toml n0 taken.db
ends_with 'another address to wait at' "$socket 192.0.2.1:1883: the address is none of this machine" homes.toml n0 own.db --listen 192.0.2.1:1883
ends_with 'another bridge that is none' "$socket here: it is no IP address with a port" homes.toml n0 own.db --bridge-listen here
ends_with 'a status at an address in use' "$socket $taken: the address is in use" homes.toml n0 own.db --status "$taken"
ends_with 'a status at no address' "$socket localhost: it is no IP address with a port" homes.toml n0 own.db --status localhost

# What `check` prints, or says on standard error, with its exit status before it.
checked() {
    local status=0
    "${program[@]}" check "$@" > out 2> err || status=$?
    echo "$status $(cat out err)"
}

# Checks that `check` of the words behind $2 ends in the same way.
is_refused() {
    local name=$1 wanted=$2
    shift 2
    check "$name" "$(status_of "$wanted") $wanted" "$(checked "$@")"
}

cp own.db own.copy
told=$'node n0 number 0\nsessions 0\nsubscriptions 0\nretained 0\nlane 1 waiting 0\ntaken 0 0\ntaken 1 0'
check 'check: what rows hold' "0 $told" "$(checked homes.toml n0 own.db)"
check 'check: the database is as it was' same "$(cmp -s own.db own.copy && echo same)"
is_refused 'check: no database' "$rows opening the database no.db: no such file or folder" homes.toml n0 no.db
check 'check: it makes none' none "$([ -e no.db ] || echo none)"
: > blank.db
is_refused 'check: an empty file' "$rows opening the database blank.db: it has no rows: it is empty, or its log is not beside it" homes.toml n0 blank.db
is_refused 'check: rows of another node' "$rows the rows in own.db: they are those of node 0 of the table, counted from 0" homes.toml n1 own.db
is_refused 'check: a node that the table does not name' $'broker: configuration: UnknownNode\nbroker: reading homes.toml: it does not name the node n2' homes.toml n2 own.db
serve_on
is_refused 'check: a database that is open' "$rows opening the database open.db: a program that runs has it open" homes.toml n0 open.db
check 'a database is for its owner alone' '600 600' "$(stat -c %a open.db open.db-wal | paste -sd ' ')"
kill_node n0
exit "$failed"
