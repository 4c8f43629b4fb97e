#!/usr/bin/env bash
# What an audit costs the host: images of so many functions that all aren't well, and generated programs, each at a size and at twice the size.
# Where valgrind is installed its callgrind counts host instructions; else the time is taken. Prints a line each: the image, how many functions
# it has, and what one more function costs. `EHABI_AUDIT=PROGRAM EHABI_RUN=PROGRAM bench/audit_cost.sh` measures another build. Needs python3.
set -eu
top=$(cd "$(dirname "$0")/.." && pwd)
work=$(mktemp -d)
trap 'rm -rf "$work"' EXIT
audit=${EHABI_AUDIT:-}
[ -n "$audit" ] || { "$top/ehabi_audit" >/dev/null || true; audit=$top/out/ehabi_audit; }
run=${EHABI_RUN:-$top/ehabi_run}

# $1 functions of one name, each `mov pc, r0`, and no index
unwell() {
    python3 - "$1" <<'PYTHON'
import struct, sys

count, start = int(sys.argv[1]), 0x8000
code = struct.pack("<H", 0x4687) * count
code += bytes(-len(code) % 4)
table = bytes(16) + b"".join(struct.pack("<IIIBBH", 1, (start + 2 * k) | 1, 2, 0x12, 0, 1) for k in range(count))
strings = b"\0f\0\0"
at = 52 + 32
places = [at, at + len(code), at + len(code) + len(table)]
end = places[2] + len(strings)
head = b"\x7fELF\x01\x01\x01" + bytes(9)
head += struct.pack("<HHIIIIIHHHHHH", 2, 40, 1, start | 1, 52, end, 0x05000000, 52, 32, 1, 40, 3, 0)
program = struct.pack("<8I", 1, places[0], start, start, len(code), len(code), 5, 4)
sections = bytes(40)
sections += struct.pack("<10I", 0, 2, 0, 0, places[1], len(table), 2, 1, 4, 16)
sections += struct.pack("<10I", 0, 3, 0, 0, places[2], len(strings), 0, 0, 1, 0)
sys.stdout.buffer.write(head + program + code + table + strings + sections)
PYTHON
}

# the image of $1 functions in a source, each with a frame that its table takes back
well() {
    python3 - "$1" >"$work/well.s" <<'PYTHON'
import sys

print("        .global main")
for k in range(int(sys.argv[1]) - 1, -1, -1):
    name = f"f{k}" if k else "main"
    print(f"        .type {name}, %function\n{name}:   .fnstart\n        .save {{r4, lr}}\n        push {{r4, lr}}\n        movs r4, #1\n        pop {{r4, pc}}\n        .fnend")
PYTHON
    "$run" build "$work/well.s"
}

# runs the audit of an image after the words that follow it
run_audit() {
    local image=$1 status=0
    shift
    "$@" "$audit" "$image" >"$work/out" 2>"$work/err" || status=$?
    [ "$status" -eq 0 ] || [ "$status" -eq 3 ] || { echo "$image: status $status" >&2; exit 1; }
}

# host instructions of an audit
instructions() {
    run_audit "$1" valgrind --tool=callgrind --callgrind-out-file="$work/callgrind"
    awk '/Collected/ { print $4 }' "$work/err"
}

# nanoseconds of an audit
nanoseconds() {
    local begun
    begun=$(date +%s%N)
    run_audit "$1"
    echo $(($(date +%s%N) - begun))
}

counting=nanoseconds
unit=ns
if command -v valgrind >/dev/null; then
    counting=instructions
    unit='host instructions'
fi

# $1 makes the image, $2 is its name, $3 and $4 how many functions it has
measure() {
    local less more
    "$1" "$3" >"$work/less.elf"
    "$1" "$4" >"$work/more.elf"
    less=$("$counting" "$work/less.elf")
    more=$("$counting" "$work/more.elf")
    awk -v name="$2" -v less="$less" -v more="$more" -v few="$3" -v many="$4" -v unit="$unit" \
        'BEGIN { printf "%s: %d functions %.0f, %d functions %.0f, one more %.0f %s\n", name, few, less, many, more, (more - less) / (many - few), unit }'
}

measure unwell 'functions that are not well' 1000 2000
measure unwell 'functions that are not well' 2000 4000
measure well 'functions with frames' 1000 2000
measure well 'functions with frames' 2000 4000
