#!/usr/bin/env bash
# What it costs to rewrite GNU's tables: images with so many generic entries, each with a table of its own (the larger has 20,000 rows and some
# 520 KB), and one of 60,000 rows that share a table, whose rewritten image would be too large. Prints what `gnu` answers, its time and its memory.
set -eu
top=$(cd "$(dirname "$0")/.." && pwd)
work=$(mktemp -d)
trap 'rm -rf "$work"' EXIT
"$top/ehabi_run" >/dev/null || true

measure() {
    python3 "$top/bench/gnu_image.py" "$1" "$2" >"$work/image"
    /usr/bin/time -f '%e s, %M KB' -o "$work/time" "$top/out/ehabi_run" gnu "$work/image" 100 >"$work/out" || true
    echo "$1 rows, $2 tables, $(stat -c %s "$work/image") bytes: $(tail -n 1 "$work/out"), $(cat "$work/time")"
}

measure 10000 own
measure 20000 own
measure 60000 shared
