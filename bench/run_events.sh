#!/usr/bin/env bash
# How many events a second `run` does on the machine that unwinds, on three loops like those of flat_events.sh as sources, and how
# long a throw takes through 1,000 frames with a cleanup each, by frame. Prints a line each. Needs awk.
set -eu
top=$(cd "$(dirname "$0")/.." && pwd)
. "$top/bench/run_loops.sh"
work=$(mktemp -d)
trap 'rm -rf "$work"' EXIT
"$top/ehabi_run" >/dev/null || true

# runs the source, and sets the nanoseconds that it took
timed() {
    local begun
    begun=$(date +%s%N)
    "$top/out/ehabi_run" run "$work/source.s" 1000000000 >"$work/said" || true
    nanoseconds=$(($(date +%s%N) - begun))
    tail -n 1 "$work/said" | grep -qx -- '-- exit 0' || { echo "not run:" >&2; tail -n 1 "$work/said" >&2; exit 1; }
}

# measure NAME EVENTS BODY: EVENTS events a round, some twenty million in all
measure() {
    local rounds=$((20000000 / $2))
    source_text "$rounds" "$3" >"$work/source.s"
    timed
    awk -v name="$1" -v events=$((rounds * $2)) -v ns="$nanoseconds" \
        'BEGIN { printf "%s: %d events in %.2f s, %.1f million a second\n", name, events, ns / 1e9, events * 1000 / ns }'
}
each_run_loop measure

# so many frames with a cleanup each between a throw and its handler, so many times
throw_text() {
    awk -v frames="$1" -v times="$2" 'BEGIN {
        printf ".global main\n.type main, %%function\nmain: .fnstart\n.save {r4, lr}\npush {r4, lr}\nmovs r4, #%d\n", times
        printf ".Lround:\n.Lmain: bl f1\n.Lbehind: pop {r4, pc}\n.Lcaught: bl __cxa_begin_catch\nbl __cxa_end_catch\nsubs r4, #1\nbne .Lround\nmovs r0, #0\npop {r4, pc}\n"
        printf ".personalityindex 0\n.handlerdata\n.half .Lbehind-.Lmain+1, .Lmain-main\n.word .Lcaught(prel31), _ZTIi(target2), 0\n.fnend\n"
        for (i = 1; i <= frames; i++) {
            printf ".type f%d, %%function\nf%d: .fnstart\n.save {r4, lr}\npush {r4, lr}\n.Lc%d: bl f%d\n.Lb%d: pop {r4, pc}\n.Lp%d: bl __cxa_end_cleanup\n", i, i, i, i + 1, i, i
            printf ".personalityindex 0\n.handlerdata\n.half .Lb%d-.Lc%d, .Lc%d-f%d\n.word .Lp%d(prel31), 0\n.fnend\n", i, i, i, i, i
        }
        printf ".type f%d, %%function\nf%d: .fnstart\n.save {r4, lr}\npush {r4, lr}\nmovs r0, #4\nbl __cxa_allocate_exception\nldr r1, =_ZTIi\nmovs r2, #0\nbl __cxa_throw\n.fnend\n", frames + 1, frames + 1
    }'
}

throw_text 1000 100 >"$work/source.s"
timed
awk -v ns="$nanoseconds" 'BEGIN { printf "100 throws through 1,000 frames with a cleanup each: %.2f s, %.2f microseconds a frame\n", ns / 1e9, ns / 100000 / 1000 }'
