#!/usr/bin/env bash
# What an event of `flat` costs the host, for three loops of raw code: counting, loads and stores, and calls that push and pop.
# Where valgrind is installed its callgrind counts host instructions; else the time is taken. Either is the difference of two
# runs with different budgets, so that the start of the program plays no part.
# Prints a line each: the loop, and what one event costs.
set -eu
top=$(cd "$(dirname "$0")/.." && pwd)
. "$top/bench/flat_loops.sh"
work=$(mktemp -d)
trap 'rm -rf "$work"' EXIT
"$top/ehabi_run" >/dev/null || true
write_loops "$work"

# the loop $1 runs to its budget $2, after the words that follow
run() {
    local loop=$1 budget=$2
    shift 2
    "$@" "$top/out/ehabi_run" flat "$work/$loop" "$budget" >"$work/out" 2>"$work/err" || [ $? -eq 6 ]
    grep -q -- '-- budget' "$work/out" || { echo "$loop: did not run to its budget" >&2; exit 1; }
}

# host instructions of a run
instructions() {
    run "$1" "$2" valgrind --tool=callgrind --callgrind-out-file="$work/callgrind"
    awk '/Collected/ { print $4 }' "$work/err"
}

# nanoseconds of a run
nanoseconds() {
    local begun
    begun=$(date +%s%N)
    run "$1" "$2"
    echo $(($(date +%s%N) - begun))
}

# $1 is the loop's name, $2 its file, $3 what is counted, $4 and $5 the budgets, $6 the unit
measure() {
    local less more
    less=$("$3" "$2" "$4")
    more=$("$3" "$2" "$5")
    awk -v name="$1" -v cost=$((more - less)) -v events=$(($5 - $4)) -v unit="$6" \
        'BEGIN { printf "%s: %.1f %s an event\n", name, cost / events, unit }'
}

if command -v valgrind >/dev/null; then
    measured=(instructions 20000 220000 'host instructions')
else
    measured=(nanoseconds 10000000 50000000 ns)
fi
measure counting count "${measured[@]}"
measure 'loads and stores' memory "${measured[@]}"
measure 'calls, push and pop' calls "${measured[@]}"
