#!/usr/bin/env bash
# What clients of MQTT 3.1.1 get beside those of MQTT 5.0, at a node that is started with --mqtt3: the same load by each in turn, at QoS 0 (examples/load.c).
# Ten pairs of a publisher and a subscriber have 16 messages each on their way; and one publisher has two, each of them for 1,000 subscribers. A line tells
# what each load of each round came to. Then a line for each load tells the share: what clients of MQTT 3.1.1 got, divided by what those of MQTT 5.0 got, by
# the middle one of the rounds, of messages a second, and of messages for each second of the node's processor, which other work on the machine changes little.
#
#   examples/earlier.sh              runs the program that ./build has built
#   examples/earlier.sh PROGRAM..    runs these words in its place
#
# ROUNDS (3) says how many rounds there are, SECONDS_EACH (3) how long a load lasts. It needs a C compiler (CC names another one than cc). The status is 1 where
# a load came to nothing. The ports 18831 and 18832 must be free.
set -eu

source "$(dirname "${BASH_SOURCE[0]}")/nodes.sh"
run_by "$@"
need "${CC:-cc}"
rounds=${ROUNDS:-3}
seconds=${SECONDS_EACH:-3}
"${CC:-cc}" -O2 -pthread -o "$work/load" "$top/examples/load.c"
ulimit -n 4096
printf '[[node]]\nname = "n0"\naddress = "%s:18831"\nbridge = "%s:18832"\n' "$host" "$host" > "$work/homes.toml"
options=(--mqtt3)
loads=('10 pairs, 16 ahead' '1 to 1,000, 2 ahead')
words=('-n 10 -a 16' '-n 1 -r 1000 -a 2')

# Loads a node with an empty database, by clients of the level $2.
load() {
    local said
    rm -f "$work"/n0.db*
    start_node n0 "$work/homes.toml" "$work/n0.db"
    # shellcheck disable=SC2086
    said=$("$work/load" -p 18831 -m "${nodes[n0]}" -q 0 -s "$seconds" -v "$2" ${words[$1]})
    kill_node n0
    echo "${loads[$1]}, $3: $said"
    # messages a second, and for each second of the processor
    sed -n 's/.* came: \([0-9]*\) a second.*; \([0-9]*\) for each second.*/\1 \2/p' <<< "$said" >> "$work/$1-$2"
}

for round in $(seq "$rounds"); do
    for it in "${!loads[@]}"; do
        load "$it" 5 "MQTT 5.0, round $round"
        load "$it" 4 "MQTT 3.1.1, round $round"
    done
done
for it in "${!loads[@]}"; do
    echo "${loads[$it]}: clients of MQTT 3.1.1 got $(share "$work/$it-4" "$work/$it-5" 1) of what those of MQTT 5.0 got, and $(share "$work/$it-4" "$work/$it-5" 2) for each second of the processor"
    if [ "$(share "$work/$it-4" "$work/$it-5" 1)" = 0.00 ]; then
        failed=1
    fi
done
exit "$failed"
