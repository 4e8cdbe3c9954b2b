#!/usr/bin/env bash
# What users and permissions cost: the same load at QoS 0 at a node without them, and at one with 100 users and 1,000 rules (examples/load.c). The clients are one of the users, who has ten of
# the rules; that of their topics is the last one. A line tells what each load of each round came to. Then a line for each load tells the share: what came with
# users, divided by what came without, by the middle one of the rounds, of messages a second, and of messages for each second of the node's processor, which other
# work on the machine changes little.
#
#   examples/users_cost.sh              runs the program that ./build has built
#   examples/users_cost.sh PROGRAM..    runs these words in its place
#
# ROUNDS (3) says how many rounds there are, SECONDS_EACH (3) how long a load lasts. It needs a C compiler (CC names another one than cc). The status is 1 where
# a load came to nothing. The ports 18831 and 18832 must be free.
set -eu

source "$(dirname "${BASH_SOURCE[0]}")/nodes.sh"
run_by "$@"
need "${CC:-cc}"
rounds=${ROUNDS:-3}
seconds=${SECONDS_EACH:-3}
"${CC:-cc}" -O2 -pthread -o "$work/load" "$top/examples/load.c"
ulimit -n 4096
printf '[[node]]\nname = "n0"\naddress = "%s:18831"\nbridge = "%s:18832"\n' "$host" "$host" > "$work/homes.toml"
loads=('10 pairs, 16 ahead' '100 pairs, 1 ahead')
words=('-n 10 -a 16' '-n 100 -a 1')

# A hundred users with the same password, and ten rules for each.
line=$(echo secret | "${program[@]}" password user | cut -d: -f2-)
for user in $(seq 100); do
    echo "user$user:$line" >> "$work/users"
    echo "user user$user"
    for room in $(seq 9); do
        echo "topic readwrite house/$user/room/$room/#"
    done
    echo 'topic readwrite pair/+'
done > "$work/permissions"

# Loads a node with an empty database, with users where the second word is `with`.
load() {
    local said
    local -a as=()
    options=()
    if [ "$2" = with ]; then
        options=(--users "$work/users" --permissions "$work/permissions")
        as=(-u user50 -w secret)
    fi
    rm -f "$work"/n0.db*
    start_node n0 "$work/homes.toml" "$work/n0.db"
    # shellcheck disable=SC2086
    said=$("$work/load" -p 18831 -m "${nodes[n0]}" -q 0 -s "$seconds" "${as[@]}" ${words[$1]})
    kill_node n0
    echo "${loads[$1]}, $2 users, round $3: $said"
    # messages a second, and for each second of the processor
    sed -n 's/.* came: \([0-9]*\) a second.*; \([0-9]*\) for each second.*/\1 \2/p' <<< "$said" >> "$work/$1-$2"
}

for round in $(seq "$rounds"); do
    for it in "${!loads[@]}"; do
        load "$it" without "$round"
        load "$it" with "$round"
    done
done
for it in "${!loads[@]}"; do
    echo "${loads[$it]}: with users $(share "$work/$it-with" "$work/$it-without" 1) of what came without, and $(share "$work/$it-with" "$work/$it-without" 2) for each second of the processor"
    if [ "$(share "$work/$it-with" "$work/$it-without" 1)" = 0.00 ]; then
        failed=1
    fi
done
exit "$failed"
