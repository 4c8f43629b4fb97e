#!/usr/bin/env bash
# How many events a second `flat` runs, for three loops of raw code: counting, loads and stores, and calls that push and pop.
# Prints a line each: the loop, the events, the seconds, the events per second.
set -eu
top=$(cd "$(dirname "$0")/.." && pwd)
. "$top/bench/flat_loops.sh"
work=$(mktemp -d)
trap 'rm -rf "$work"' EXIT
"$top/ehabi_run" >/dev/null || true

measure() {
    local name=$1 file=$2 events=$3 begun ended
    begun=$(date +%s%N)
    "$top/out/ehabi_run" flat "$file" "$events" >"$work/out" || [ $? -eq 6 ]
    ended=$(date +%s%N)
    grep -q -- '-- budget' "$work/out" || { echo "$name: did not run to its budget" >&2; exit 1; }
    awk -v name="$name" -v events="$events" -v ns=$((ended - begun)) \
        'BEGIN { printf "%s: %d events in %.2f s, %.1f million a second\n", name, events, ns / 1e9, events * 1000 / ns }'
}

write_loops "$work"
measure counting "$work/count" 50000000
measure counting "$work/count" 100000000
measure 'loads and stores' "$work/memory" 50000000
measure 'loads and stores' "$work/memory" 100000000
measure 'calls, push and pop' "$work/calls" 25000000
measure 'calls, push and pop' "$work/calls" 50000000
