#!/usr/bin/env bash
# How long `build` takes to read, assemble, link and write generated programs (docs/guide/command-line.md) of 500, 1,000, 2,000
# and 4,000 functions, and how much memory it has at most. Every function has an unwind entry, a call and two labels, and three
# of four have a pad and a table. Prints a line each. Needs GNU time.
set -eu
top=$(cd "$(dirname "$0")/.." && pwd)
work=$(mktemp -d)
trap 'rm -rf "$work"' EXIT
"$top/ehabi_run" >/dev/null || true
# rt builds a program by running it
(cd "$top/crates/bench_generate" && rt run -- 1 1) >"$work/said" 2>&1 || { tail -n 20 "$work/said" >&2; exit 1; }

measure() {
    local begun ended
    "$top/crates/bench_generate/out/bench_generate" 1 "$1" >"$work/source.s"
    begun=$(date +%s%N)
    (cd "$work" && /usr/bin/time -f %M -o memory "$top/out/ehabi_run" build source.s >image)
    ended=$(date +%s%N)
    [ "$(head -c 4 "$work/image")" = $'\x7fELF' ] || { echo "$1 functions: not built" >&2; head -c 200 "$work/image" >&2; exit 1; }
    awk -v functions="$1" -v lines="$(wc -l <"$work/source.s")" -v bytes="$(wc -c <"$work/source.s")" \
        -v ns=$((ended - begun)) -v memory="$(cat "$work/memory")" \
        'BEGIN { printf "%d functions, %d lines, %d bytes: %.3f s, %.1f MB\n", functions, lines, bytes, ns / 1e9, memory / 1000 }'
}

for functions in 500 1000 2000 4000; do measure "$functions"; done
