#!/usr/bin/env bash
# What events, checks, builds and throws cost the host, and beside each what a plain tool takes for the like: host instructions by valgrind's
# callgrind. An event is the difference of two runs with more and with fewer of them, so that neither the start of the program nor the check of
# the image plays a part; so is a frame of a throw. What grows with its input is counted at a size and at twice the size.
# Beside `flat` and `run` stands a plain interpreter in C on the same loops as raw code (plain_core.c), beside `check` `readelf -u` of the same
# image with a section header more, beside `build` GNU as and ld for Arm on the same text, as far as they take it, and beside a throw the host's
# g++ with its own runtime, through as many functions of which each has a destructor to run, or none. `bench/real_image.sh` counts a check of real
# code. Prints a line each. Needs cc, g++, readelf and perl, and for `build` arm-none-eabi-as and -ld.
# `EHABI_RUN=PROGRAM EHABI_GENERATE=PROGRAM bench/costs.sh` measures another build of the programs.
set -eu
top=$(cd "$(dirname "$0")/.." && pwd)
. "$top/bench/flat_loops.sh"
. "$top/bench/run_loops.sh"
. "$top/bench/index_section.sh"
work=$(mktemp -d)
trap 'rm -rf "$work"' EXIT
program=${EHABI_RUN:-}
[ -n "$program" ] || { "$top/ehabi_run" >/dev/null || true; program=$top/out/ehabi_run; }
generate=${EHABI_GENERATE:-}
if [ -z "$generate" ]; then
    # rt builds a program by running it
    (cd "$top/crates/bench_generate" && rt run -- 1 1) >"$work/said" 2>&1 || { tail -n 20 "$work/said" >&2; exit 1; }
    generate=$top/crates/bench_generate/out/bench_generate
fi
cc -O2 -o "$work/plain" "$top/bench/plain_core.c"
write_loops "$work"

# host instructions of a command
instructions() {
    valgrind --tool=callgrind --callgrind-out-file=/dev/null "$@" >"$work/out" 2>"$work/err" || true
    awk '/Collected/ { print $4 }' "$work/err"
}

# by_event FEWER MORE COUNT COMMAND: what one of the % of the command costs, by runs with so many and so many more, each COUNT of them
by_event() {
    local fewer=$1 more=$2 count=$3 less
    shift 3
    less=$(instructions "${@//%/$fewer}")
    awk -v cost=$(($(instructions "${@//%/$more}") - less)) -v events=$(((more - fewer) * count)) 'BEGIN { printf "%.1f", cost / events }'
}

flat() {
    echo "flat, $1: $(by_event 20000 220000 1 "$program" flat "$work/$2" %) host instructions an event; plainly $(by_event 20000 220000 1 "$work/plain" "$work/$2" %)"
}
flat counting count
flat 'loads and stores' memory
flat 'calls, push and pop' calls

# run NAME EVENTS BODY BYTES: EVENTS events a round, of the source and of the same rounds as raw code
run() {
    source_text 4000 "$3" >"$work/4000.s"
    source_text 10000 "$3" >"$work/10000.s"
    bytes "$4" >"$work/raw"
    echo "run, $1: $(by_event 4000 10000 "$2" "$program" run "$work/%.s" 1000000000) host instructions an event; plainly $(by_event 20000 220000 1 "$work/plain" "$work/raw" %)"
}
each_run_loop run

# twice NAME ONCE TWICE: what 2,000 functions cost, and 4,000
twice() {
    awk -v name="$1" -v once="$2" -v twice="$3" 'BEGIN { printf "%s, 2000 and 4000 functions: %d and %d host instructions, %.2f times", name, once, twice, twice / once }'
}
for functions in 2000 4000; do
    "$generate" 1 "$functions" >"$work/$functions.s"
    "$program" build "$work/$functions.s" >"$work/$functions.elf"
done
with_index_section <"$work/4000.elf" >"$work/image_with_section"
twice check "$(instructions "$program" check "$work/2000.elf")" "$(instructions "$program" check "$work/4000.elf")"
printf '; readelf -u %d\n' "$(instructions readelf -u "$work/image_with_section")"
twice build "$(instructions "$program" build "$work/2000.s")" "$(instructions "$program" build "$work/4000.s")"
if command -v arm-none-eabi-as >/dev/null; then
    # GNU as has another word for a halfword, and no mark for these addresses
    sed 's/^\.half/.short/; s/\([.A-Za-z0-9_]*\)(prel31)/\1-./' "$work/4000.s" >"$work/gnu.s"
    assembled=$(instructions arm-none-eabi-as -mcpu=cortex-m0 -mthumb "$work/gnu.s" -o "$work/gnu.o")
    linked=$(instructions arm-none-eabi-ld --unresolved-symbols=ignore-all -e main "$work/gnu.o" -o "$work/gnu.elf")
    printf '; GNU as and ld %d' $((assembled + linked))
fi
echo

cat >"$work/frames.cpp" <<'SOURCE'
#include <cstdlib>
static volatile int sink;
struct Cleanup { ~Cleanup() { sink = sink + 1; } };
template <int N> struct Frame {
    __attribute__((noinline)) static void call() {
#ifdef CLEANUPS
        Cleanup cleanup;
#endif
        Frame<N - 1>::call();
        sink = sink + 1;
    }
};
template <> struct Frame<0> {
    __attribute__((noinline)) static void call() { throw 1; }
};
int main(int, char **words) {
    for (int left = std::atoi(words[1]); left > 0; left--) {
        try { Frame<FRAMES>::call(); } catch (int) { sink = sink + 1; }
    }
}
SOURCE

# frames NAME FLAGS: what a frame between a throw and its handler costs the host's g++, by throws through 125 and through 250 of them
frames() {
    local name=$1 frames
    shift
    for frames in 125 250; do
        g++ -O2 -ftemplate-depth=1000 "$@" -DFRAMES="$frames" -o "$work/frames$frames" "$work/frames.cpp"
    done
    awk -v once="$(by_event 5 15 1 "$work/frames125" %)" -v twice="$(by_event 5 15 1 "$work/frames250" %)" -v name="$name" \
        'BEGIN { printf "g++ on this host, %s: %.1f host instructions a frame\n", name, (twice - once) / 125 }'
}
EHABI_RUN=$program "$top/bench/throw_cost.sh"
frames 'with a destructor each' -DCLEANUPS
frames 'without'
