#!/usr/bin/env bash
# What threads cost the host: an event of one thread that counts, beside one of `run` in the same loop; a switch of two threads that count in
# turns; and an element of a schedule whose thread doesn't run. Host instructions by valgrind's callgrind, each as the difference of two runs with
# different budgets, so that neither the start of the program nor the check of the image plays a part.
# Prints a line each.
set -eu
top=$(cd "$(dirname "$0")/.." && pwd)
work=$(mktemp -d)
trap 'rm -rf "$work"' EXIT
"$top/ehabi_run" >/dev/null || true
less=20000
more=220000

# count_down NAME BEGIN: a function that counts, after BEGIN
count_down() {
    printf '.global %s\n.type %s, %%function\n%s: .fnstart\n.save {r4, lr}\npush {r4, lr}\n%s\nldr r4, =1000000000\n' "$1" "$1" "$1" "$2"
    printf '.L%s: subs r4, #1\nbne .L%s\nmovs r0, #0\npop {r4, pc}\n.fnend\n' "$1" "$1"
}

count_down main '' >"$work/one.s"
{
    count_down main $'ldr r0, =other\nmovs r1, #0\nsvc #32'
    count_down other ''
} >"$work/two.s"
for schedule in 0 01 3; do
    printf '%s\n' "$schedule" >"$work/s$schedule.sched"
done

# host instructions of a run of so many events or elements, the last of the words
instructions() {
    valgrind --tool=callgrind --callgrind-out-file="$work/callgrind" "$top/out/ehabi_run" "$@" >"$work/out" 2>"$work/err" || [ $? -eq 6 ]
    grep -q -- '-- budget' "$work/out" || { echo "$*: did not run to its budget" >&2; exit 1; }
    awk '/Collected/ { print $4 }' "$work/err"
}

# what one event or element costs
cost() {
    local low high
    low=$(instructions "$@" "$less")
    high=$(instructions "$@" "$more")
    awk -v cost=$((high - low)) -v count=$((more - less)) 'BEGIN { printf "%.1f", cost / count }'
}

run=$(cost run "$work/one.s")
one=$(cost threads "$work/one.s" "$work/s0.sched")
two=$(cost threads "$work/two.s" "$work/s01.sched")
none=$(cost threads "$work/one.s" "$work/s3.sched")
awk -v run="$run" -v one="$one" -v two="$two" -v none="$none" 'BEGIN {
    printf "run, counting: %s host instructions an event\n", run
    printf "threads, one thread counting: %s host instructions an event, %.2f times as many\n", one, one / run
    printf "threads, a switch of two that count: %.1f host instructions, %.2f events of `run`\n", two - one, (two - one) / run
    printf "threads, an element passed over: %s host instructions\n", none
}'
