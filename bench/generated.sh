#!/usr/bin/env bash
# What the generated programs of number 1 (docs/guide/command-line.md) with 500, 1,000, 2,000 and 4,000 functions take: `build` of
# the source, `check` and `run` of the image, and `gen`, which does all of it. Times are the least of ten. How many events a run has
# is found by halving its budget, and how many it does a second is by how much longer `run` takes than `check`. Memory is the most
# that `gen` has. Prints a line each, after the date. Needs GNU time and awk.
set -eu
top=$(cd "$(dirname "$0")/.." && pwd)
work=$(mktemp -d)
trap 'rm -rf "$work"' EXIT
"$top/ehabi_run" >/dev/null || true
# rt builds a program by running it
(cd "$top/crates/bench_generate" && rt run -- 1 1) >"$work/said" 2>&1 || { tail -n 20 "$work/said" >&2; exit 1; }
cd "$work"

# sets the least nanoseconds of ten calls of the program with these words, whose text goes to the file said
timed() {
    local begun took
    nanoseconds=
    for _ in 1 2 3 4 5 6 7 8 9 10; do
        begun=$(date +%s%N)
        "$top/out/ehabi_run" "$@" >said </dev/null
        took=$(($(date +%s%N) - begun))
        [ -n "$nanoseconds" ] && [ "$nanoseconds" -le "$took" ] || nanoseconds=$took
    done
}

# the last line of the text is this, or the program was not measured
ends_with() { [ "$(tail -n 1 said)" = "$1" ] || { echo "not measured: $(head -c 200 said)" >&2; exit 1; }; }

# whether so many events are too few for the image
are_few() {
    "$top/out/ehabi_run" run image "$1" >said </dev/null || [ $? -eq 6 ]
    [ "$(tail -n 1 said)" = '-- budget' ]
}

# sets the events of the image: the least budget that is not too small
count_events() {
    local low=0 half
    events=1
    while are_few "$events"; do low=$events; events=$((2 * events)); done
    while [ $((events - low)) -gt 1 ]; do
        half=$(((low + events) / 2))
        if are_few "$half"; then low=$half; else events=$half; fi
    done
}

measure() {
    local build check run
    "$top/crates/bench_generate/out/bench_generate" 1 "$1" >source.s
    timed build source.s
    build=$nanoseconds
    cp said image
    timed check image
    ends_with "accepted $(($1 + 16)) functions"
    check=$nanoseconds
    count_events
    timed run image 1000000000
    ends_with '-- exit 0'
    run=$nanoseconds
    timed gen 1 "$1"
    ends_with '-- exit 0'
    /usr/bin/time -f %M -o memory "$top/out/ehabi_run" gen 1 "$1" >said </dev/null
    awk -v functions="$1" -v build="$build" -v check="$check" -v run="$run" -v whole="$nanoseconds" -v events="$events" -v memory="$(tail -n 1 memory)" 'BEGIN {
        printf "%d functions: build %.3f s, check %.3f s, run %.3f s, gen %.3f s, %.1f MB; %d events, ",
            functions, build / 1e9, check / 1e9, run / 1e9, whole / 1e9, memory / 1000, events
        if (run > check) printf "%.1f million a second\n", events * 1000 / (run - check)
        else print "too few to tell how many a second"
    }'
}

date -u '+%Y-%m-%d %H:%M UTC'
for functions in 500 1000 2000 4000; do measure "$functions"; done
