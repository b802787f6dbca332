#!/bin/sh
# Lines that `marker` answers in a second, on one core:
#   accepted: schedules of 8,000 calls that are all accepted, each on a run of its own (starting the program counts too)
#   long:     one file of 2,000,001 lines, where every call after the first 8,000 is refused
set -e
cd "$(dirname "$0")/.."
(cd crates/marker && rt run < /dev/null > /dev/null 2>&1)
marker=crates/marker/out/marker
folder=target/bench
mkdir -p "$folder"

# A first line and so many calls: the owner locks and unlocks; then a node is published, protected, removed, released and reclaimed.
schedule() {
    awk -v calls="$1" 'BEGIN {
        round = "b 0 7 0 0,s 0,s 0,b 0 8 0 0,s 0,s 0,l 0,l 0,t," \
            "b 0 4 0 1,s 0,b 1 1 0 0,s 1,s 1,s 1,l 1,b 0 5 0 0,s 0,s 0,s 0,b 1 3 0 0,s 1,l 1,t,t,t,b 0 6 0 0,s 0,s 0,s 0,s 0"
        n = split(round, call, ",")
        print "1 0 2 1 1 2 3 2"
        for (i = 0; i < calls; i++) print call[i % n + 1]
    }'
}

# One core, where the system can be told so.
one_core() {
    if command -v taskset > /dev/null; then taskset -c 0 "$@"; else "$@"; fi
}

# The rate of so many lines since a time in nanoseconds.
rate() {
    now=$(date +%s%N)
    echo "$1: $2 lines in $(((now - $3) / 1000000)) ms, $(($2 * 1000 / ((now - $3) / 1000000))) lines a second"
}

schedule 8000 > "$folder/accepted.txt"
schedule 2000000 > "$folder/long.txt"
refused=$("$marker" < "$folder/accepted.txt" | grep -c -v '^[0-5] ' || true)
[ "$refused" = 0 ] || { echo "$refused calls are refused"; exit 1; }

runs=200
start=$(date +%s%N)
one_core sh -c 'i=0; while [ $i -lt $3 ]; do "$1" < "$2" > /dev/null; i=$((i + 1)); done' sh "$marker" "$folder/accepted.txt" $runs
rate accepted $((runs * 8001)) "$start"

start=$(date +%s%N)
one_core "$marker" < "$folder/long.txt" > /dev/null
rate long 2000001 "$start"
