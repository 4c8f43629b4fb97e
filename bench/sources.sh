#!/usr/bin/env bash
# How long `build` takes to read, assemble and link a source of 47,000 lines (1.3 megabytes) with 4,000 functions, and
# one of half of each. Every function has an unwind entry, a call, a pool and two labels. Prints a line each. Needs perl.
set -eu
top=$(cd "$(dirname "$0")/.." && pwd)
work=$(mktemp -d)
trap 'rm -rf "$work"' EXIT
"$top/ehabi_run" >/dev/null || true

# source_text LINES FUNCTIONS: a source whose functions call one another in a row
source_text() {
    perl -e '
        my ($lines, $functions) = @ARGV;
        my $written = 0;
        sub line { print "$_[0]\n"; $written++ }
        line(".global main");
        for my $i (0 .. $functions - 1) {
            my $name = $i ? sprintf("function_number_%d", $i) : "main";
            my $next = sprintf("function_number_%d", ($i + 1) % $functions || 1);
            line(".type $name, %function");
            line("$name: .fnstart");
            line("        .save {r4, lr}");
            line("        push {r4, lr}");
            line("        movs r4, r0     \@ keep the argument");
            line(".Lcall$i: bl $next");
            line("        ldr r1, =$next");
            line("        adds r0, r0, r4");
            line("        pop {r4, pc}");
            line("        .pool");
            line("        .fnend");
        }
        line("\@ nothing more is said here") while $written < $lines;
    ' "$@"
}

measure() {
    local begun ended
    source_text "$2" "$3" >"$work/source.s"
    begun=$(date +%s%N)
    (cd "$work" && "$top/out/ehabi_run" build source.s >image)
    ended=$(date +%s%N)
    [ "$(head -c 4 "$work/image")" = $'\x7fELF' ] || { echo "$1: was not built" >&2; head -c 200 "$work/image" >&2; exit 1; }
    awk -v name="$1" -v bytes="$(wc -c <"$work/source.s")" -v ns=$((ended - begun)) \
        'BEGIN { printf "%s, %d bytes: %.3f s\n", name, bytes, ns / 1e9 }'
}

measure '23,500 lines, 2,000 functions' 23500 2000
measure '47,000 lines, 4,000 functions' 47000 4000
