#!/bin/bash
# Kills the writer of a journal at random moments. After each, the journal must hold every record
# whose number was printed, and at most the one more that was being written.
# usage: crash.sh CALLS TIMES   CALLS is crates/tests_memory
set -u
calls=$(realpath "$1")
times=$2
folder=$(mktemp -d)
trap 'rm -rf "$folder"' EXIT
cd "$folder" || exit 1
found=0
for round in $(seq "$times"); do
    "$calls" write journal 4000000 > told 2> faults &
    pid=$!
    sleep "0.0$((RANDOM % 90 + 10))"
    kill -KILL "$pid" 2> /dev/null
    wait "$pid" 2> /dev/null
    lines=$(wc -l < told)
    acknowledged=$found
    if [ "$lines" -gt 0 ]; then acknowledged=$(head -n "$lines" told | tail -n 1); fi
    found=$("$calls" write journal 0) || { echo "round $round: the journal is refused"; exit 1; }
    if [ "$found" -lt "$acknowledged" ] || [ "$found" -gt $((acknowledged + 1)) ]; then
        echo "round $round: $acknowledged records were acknowledged, and $found are there"
        exit 1
    fi
done
echo "$times crashes, $found records"
