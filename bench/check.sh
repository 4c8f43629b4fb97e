#!/usr/bin/env bash
# How long `check` takes on the images of generated programs (docs/guide/command-line.md) of 2,000 and of 4,000 functions, which
# has 47,000 lines, and how much memory it has at most. Beside it stands how long other tools take to print what the same image
# says: `readelf -u` its unwind tables, `objdump -d` its instructions. Of each the first is taken that is installed: the one for
# Arm, LLVM's objdump, the host's. Readelf looks for the index by its section, so it is given a copy of the image with a section
# header more. Prints a line each; of a tool that isn't there or can't read the image, the line says so. Needs GNU time and perl.
set -eu
top=$(cd "$(dirname "$0")/.." && pwd)
. "$top/bench/index_section.sh"
work=$(mktemp -d)
trap 'rm -rf "$work"' EXIT
"$top/ehabi_run" >/dev/null || true
# rt builds a program by running it
(cd "$top/crates/bench_generate" && rt run -- 1 1) >"$work/said" 2>&1 || { tail -n 20 "$work/said" >&2; exit 1; }

# the image of a generated program of so many functions
image() {
    "$top/crates/bench_generate/out/bench_generate" 1 "$1" >"$work/source.s"
    (cd "$work" && "$top/out/ehabi_run" build source.s >image)
    [ "$(head -c 4 "$work/image")" = $'\x7fELF' ] || { echo "$1 functions: not built" >&2; head -c 200 "$work/image" >&2; exit 1; }
}

# the first of these commands that is installed
first_of() {
    local name
    for name; do command -v "$name" >/dev/null && echo "$name" && return; done
    return 1
}

# runs a command, whose text goes to the file said, and its status, nanoseconds and kilobytes to the variables of these names
timed() {
    local begun
    begun=$(date +%s%N)
    status=0
    /usr/bin/time -f %M -o "$work/memory" "$@" >"$work/said" 2>"$work/err" || status=$?
    nanoseconds=$(($(date +%s%N) - begun))
    kilobytes=$(tail -n 1 "$work/memory")
}

say_time() {
    awk -v name="$1" -v ns="$nanoseconds" -v memory="$kilobytes" 'BEGIN { printf "%s: %.3f s, %.1f MB\n", name, ns / 1e9, memory / 1000 }'
}

measure_check() {
    timed "$top/out/ehabi_run" check "$work/image"
    [ "$status" -eq 0 ] || { echo "$1: not accepted" >&2; head -c 200 "$work/said" >&2; exit 1; }
    say_time "$1, $(cat "$work/said")"
}

# $1 names the image and $2 the tool; $3 is in its text at least as often as $4 says where it can read the image, and after these
# stands the command
measure_tool() {
    local name="$1, $5 $6" tool=$2 pattern=$3 least=$4
    shift 4
    [ -n "$1" ] || { echo "$tool: not installed"; return; }
    timed "$@"
    if [ "$status" -eq 0 ] && [ "$(grep -c -- "$pattern" "$work/said")" -ge "$least" ]; then
        say_time "$name"
    else
        echo "$name: can't read the image"
    fi
}

readelf=$(first_of arm-none-eabi-readelf arm-linux-gnueabi-readelf arm-linux-gnueabihf-readelf readelf || true)
objdump=$(first_of arm-none-eabi-objdump arm-linux-gnueabi-objdump arm-linux-gnueabihf-objdump llvm-objdump objdump || true)

for functions in 2000 4000; do
    image "$functions"
    with_index_section <"$work/image" >"$work/image_with_section"
    measure_check "$functions functions"
    measure_tool "$functions functions" readelf '^0x' "$functions" "$readelf" -u "$work/image_with_section"
    measure_tool "$functions functions" objdump 'push' "$functions" "$objdump" -d "$work/image"
done
