#!/usr/bin/env bash
# Runs the three nodes of examples/cluster.toml with empty databases, each with its status told at a port of its own, and takes pictures of the
# page of n0 and of its page of the cluster, as a browser shows them: 390 and 1,280 pixels wide, with scripts and without. It has clients, and two
# peers: n1, which has all, and n2, which was killed and lacks two operations. Prints the paths of the pictures, and exits 1 where one isn't there, has another width or is blank.
#
#   examples/status_page.sh FOLDER             runs the program that ./build has built
#   examples/status_page.sh FOLDER PROGRAM..   runs these words in its place, with `run CONFIG NODE DATABASE --status ADDRESS`
#                                              behind them
#
# The pictures are FOLDER/390.png, 390_without_scripts.png, 1280.png and 1280_without_scripts.png, and the same with cluster_ before. It needs curl, mosquitto's clients and
# Chromium: apt-get install curl mosquitto-clients chromium. The ports 1883 to 1885, 2883 to 2885 and 8083 to 8085 must be free.
set -eu

if [ "$#" -eq 0 ]; then
    echo 'usage: status_page.sh FOLDER [PROGRAM..]' >&2
    exit 2
fi
mkdir -p "$1"
folder=$(cd "$1" && pwd)
shift
source "$(dirname "${BASH_SOURCE[0]}")/nodes.sh"
run_by "$@"
need chromium curl mosquitto_pub mosquitto_sub
height=1900
# A picture of fewer bytes is blank: a blank one has 4,000 to 8,000, and the page 65,000 to 85,000.
least=20000
browser=(chromium --headless --hide-scrollbars --virtual-time-budget=5000)
if [ "$(id -u)" -eq 0 ]; then
    browser+=(--no-sandbox)
fi

# Subscribes in the background at node $1 as client $2, and waits until the retained message has come.
listen() {
    : > "$work/$2"
    mosquitto_sub -V 5 -h "$host" -p $((1883 + $1)) -i "$2" -q 1 -t 'page/#' -k 600 -W 600 -F '%p' \
        > "$work/$2" 2> "$work/$2.err" &
    await_line first "$work/$2" "$!"
}

# Makes a profile of the browser $1 in which no script runs, as its settings do: with the flag `scriptEnabled=false` it takes no picture.
forbid_scripts() {
    mkdir -p "$work/$1/Default"
    echo '{"profile": {"default_content_setting_values": {"javascript": 2}}}' > "$work/$1/Default/Preferences"
}

# The width of a picture, of its PNG header.
width() {
    od -An -t u4 --endian=big -j 16 -N 4 "$1" | tr -d ' '
}

# Takes the picture $3 of what n0 shows at the path $4, so many pixels wide, by a profile, once the page's script would have asked for it twice.
take() {
    local wide=$1 profile=$2 picture=$folder/$3
    rm -f "$picture"
    timeout 120 "${browser[@]}" --user-data-dir="$work/$profile" --window-size="$wide,$height" --screenshot="$picture" "http://$(place 0)/$4" \
        > "$work/$3.log" 2>&1 || true
    if [ ! -f "$picture" ]; then
        cat "$work/$3.log" >&2
        echo "$picture isn't there"
        failed=1
    elif [ "$(width "$picture")" != "$wide" ] || [ "$(wc -c < "$picture")" -lt "$least" ]; then
        echo "$picture is $(width "$picture") pixels wide, and has $(wc -c < "$picture") bytes: it is of another width, or blank"
        failed=1
    else
        echo "$picture"
    fi
}

for node in 0 1 2; do
    start_with_status "$node"
done
retain page/first first
await_gates 200 0
listen 0 a-listener
listen 0 a-reader
listen 1 b-listener
await_gates 200 0 1 2
kill_node n2
retain page/second second
retain page/third third
await_gates 503 0

forbid_scripts silent
for wide in 390 1280; do
    take "$wide" plain "$wide.png" ''
    take "$wide" silent "${wide}_without_scripts.png" ''
    take "$wide" plain "cluster_$wide.png" cluster
    take "$wide" silent "cluster_${wide}_without_scripts.png" cluster
done
exit "$failed"
