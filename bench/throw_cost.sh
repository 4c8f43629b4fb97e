#!/usr/bin/env bash
# What a frame between a throw and its handler costs the host: with a cleanup that is entered, without one, and of one recursive function whose
# table has many descriptors, of which none is in scope. Host instructions by valgrind's callgrind. Each is counted at so many frames and at twice
# as many, as the difference of runs with more and with fewer throws, so that neither the start of the program nor the check of the image plays a
# part. Where each frame has a line of the trace, each run has more of them than are kept, so that the lines play none either. A frame's own call
# and push, and the two calls that end a cleanup, are in what it costs.
# Prints a line for each, with how much more a throw costs through twice as many frames. `EHABI_RUN=PROGRAM bench/throw_cost.sh` measures another
# build of the program.
set -eu
top=$(cd "$(dirname "$0")/.." && pwd)
work=$(mktemp -d)
trap 'rm -rf "$work"' EXIT
program=${EHABI_RUN:-}
[ -n "$program" ] || { "$top/ehabi_run" >/dev/null || true; program=$top/out/ehabi_run; }

# main_text TIMES FIRST: calls FIRST, with 0 in r0, so many times, and catches what it throws
main_text() {
    printf '.global main\n.type main, %%function\nmain: .fnstart\n.save {r4, lr}\npush {r4, lr}\nmovs r4, #%s\n' "$1"
    printf '.Lround: movs r0, #0\n.Lmain: bl %s\n.Lbehind: pop {r4, pc}\n.Lcaught: bl __cxa_begin_catch\nbl __cxa_end_catch\n' "$2"
    printf 'subs r4, #1\nbne .Lround\nmovs r0, #0\npop {r4, pc}\n.personalityindex 0\n.handlerdata\n'
    printf '.half .Lbehind-.Lmain+1, .Lmain-main\n.word .Lcaught(prel31), _ZTIi(target2), 0\n.fnend\n'
}

throw_text='movs r0, #4\nbl __cxa_allocate_exception\nldr r1, =_ZTIi\nmovs r2, #0\nbl __cxa_throw\n'

# frames_text KIND FRAMES TIMES: so many functions, each of which calls the next, between a throw and its handler
frames_text() {
    main_text "$3" f1
    awk -v kind="$1" -v frames="$2" 'BEGIN {
        for (i = 1; i <= frames; i++) {
            printf ".type f%d, %%function\nf%d: .fnstart\n.save {r4, lr}\npush {r4, lr}\n.Lc%d: bl f%d\n.Lb%d: pop {r4, pc}\n", i, i, i, i + 1, i
            if (kind == "cleanup") {
                printf ".Lp%d: bl __cxa_end_cleanup\n.personalityindex 0\n.handlerdata\n", i
                printf ".half .Lb%d-.Lc%d, .Lc%d-f%d\n.word .Lp%d(prel31), 0\n", i, i, i, i, i
            }
            printf ".fnend\n"
        }
    }'
    printf ".type f%d, %%function\nf%d: .fnstart\n.save {r4, lr}\npush {r4, lr}\n$throw_text.fnend\n" $(($2 + 1)) $(($2 + 1))
}

# recursion_text FRAMES TIMES DESCRIPTORS: one function that calls itself so many times, and so many cleanups of its first instruction
recursion_text() {
    main_text "$2" rec
    printf '.type rec, %%function\nrec: .fnstart\n.save {r4, lr}\npush {r4, lr}\nadds r0, #1\nldr r1, =%s\ncmp r0, r1\nbeq .Lthrow\n' "$1"
    printf "bl rec\npop {r4, pc}\n.Lthrow: $throw_text.Lpad: bl __cxa_end_cleanup\n.personalityindex 0\n.handlerdata\n"
    awk -v descriptors="$3" 'BEGIN { for (i = 1; i <= descriptors; i++) printf ".half 2, 0\n.word .Lpad(prel31)\n" }'
    printf '.word 0\n.fnend\n'
}

# host instructions of a run with so many throws, of the source that the other words write, with the times for %
instructions() {
    local times=$1
    shift
    "${@//%/$times}" >"$work/source.s"
    valgrind --tool=callgrind --callgrind-out-file="$work/callgrind" "$program" run "$work/source.s" 1000000000 >"$work/said" 2>"$work/err" || true
    tail -n 1 "$work/said" | grep -qx -- '-- exit 0' || { echo "$*: not run:" >&2; tail -n 1 "$work/said" >&2; exit 1; }
    awk '/Collected/ { print $4 }' "$work/err"
}

# throw_cost FEWER MORE WORDS: host instructions of a throw, by the difference of runs with so many
throw_cost() {
    local fewer=$1 more=$2 less
    shift 2
    less=$(instructions "$fewer" "$@")
    echo $((($(instructions "$more" "$@") - less) / (more - fewer)))
}

# measure NAME FRAMES COST TWICE: the costs of a throw through so many frames, and through twice as many
measure() {
    awk -v name="$1" -v frames="$2" -v once="$3" -v twice="$4" 'BEGIN {
        printf "%s, %d and %d frames: %d and %d host instructions a throw, %.2f times; %.1f one frame more\n",
            name, frames, 2 * frames, once, twice, twice / once, (twice - once) / frames }'
}

# A throw through frames with a cleanup each has as many lines of a trace, and 10,000 are kept; one through others has two. The code of 500 frames
# fits what a run keeps of decoded instructions, so that fetching them again plays no part.
for frames in 125 250; do
    fewer=$((10000 / frames + 1))
    measure "frames with a cleanup each" "$frames" "$(throw_cost "$fewer" $((fewer + 10)) frames_text cleanup "$frames" %)" \
        "$(throw_cost "$fewer" $((fewer + 10)) frames_text cleanup $((2 * frames)) %)"
done
for frames in 125 250; do
    measure "frames without a cleanup" "$frames" "$(throw_cost 1 11 frames_text plain "$frames" %)" \
        "$(throw_cost 1 11 frames_text plain $((2 * frames)) %)"
done
for descriptors in 10 20000; do
    measure "one function, $descriptors descriptors" 4090 "$(throw_cost 1 2 recursion_text 4090 % "$descriptors")" \
        "$(throw_cost 1 2 recursion_text 8180 % "$descriptors")"
done
