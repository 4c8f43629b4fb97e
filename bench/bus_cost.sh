#!/usr/bin/env bash
# What an event costs the host over an image of 3 and of 1,000 segments, in the memory that keeps them one after the other and in
# the one that keeps pages: host instructions by valgrind's callgrind, as the difference of two runs with different numbers of
# events, so that neither the start of the program nor the making of the memory plays a part. The loop is that of the program
# bench_bus. Prints a line each, and what the making of the memory costs.
set -eu
top=$(cd "$(dirname "$0")/.." && pwd)
work=$(mktemp -d)
trap 'rm -rf "$work"' EXIT
# rt builds a program by running it
(cd "$top/crates/bench_bus" && rt run -- paged 3 6) >"$work/said" 2>&1 || { tail -n 20 "$work/said" >&2; exit 1; }

# host instructions of a run: the memory's kind, how many segments, how many events
instructions() {
    valgrind --tool=callgrind --callgrind-out-file="$work/callgrind" \
        "$top/crates/bench_bus/out/bench_bus" "$1" "$2" "$3" >"$work/out" 2>"$work/err"
    grep -qx "$3 events" "$work/out" || { echo "$1 $2: not run" >&2; exit 1; }
    awk '/Collected/ { print $4 }' "$work/err"
}

for kind in flat paged; do
    for segments in 3 1000; do
        none=$(instructions "$kind" "$segments" 0)
        less=$(instructions "$kind" "$segments" 6000)
        more=$(instructions "$kind" "$segments" 66000)
        awk -v kind="$kind" -v segments="$segments" -v cost=$((more - less)) -v none="$none" \
            'BEGIN { printf "%s, %d segments: %.1f host instructions an event, %.1f million until the first\n", kind, segments, cost / 60000, none / 1e6 }'
    done
done
