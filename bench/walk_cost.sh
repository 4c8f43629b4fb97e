#!/usr/bin/env bash
# What a frame of a walk, and one on the way of a forced unwinding to its stop, costs the host: host instructions by valgrind's callgrind, as the
# difference of one over so many frames and one of a single frame, so that neither the start of the program nor the check of the image plays a
# part. The frames are those of tower.s among the walks of the program test_machine_main, of a function that lowers sp by 4 and whose caller is itself: each has two code bytes
# and no descriptor, so the unwinding is refused in the last frame. Prints a line for each number and kind.
set -eu
top=$(cd "$(dirname "$0")/.." && pwd)
work=$(mktemp -d)
trap 'rm -rf "$work"' EXIT
cases=$top/crates/test_machine_main
# rt builds a program by running it
(cd "$cases" && rt run) >"$work/said" 2>&1 || true
[ -x "$cases/out/test_machine_main" ] || { tail -n 20 "$work/said" >&2; exit 1; }
# the program reads each of its files of cases; all but one are empty here
mkdir "$work/walks" "$work/threads"
(cd "$cases/data" && find . -name '*.txt') | while read -r name; do : >"$work/$name"; done
cp "$cases/data/walks/tower.s" "$work/walks/"

# host instructions of a walk of so many frames, or of a forced unwinding to the last of them
instructions() {
    local last
    last=$(printf '%X' $((0x3FFC0000 + 4 * ($2 - 1))))
    if [ "$1" = walk ]; then
        printf 'tower.s; run 5; reg E 800D; reg D 3FFC0000; count %X : %X, 800A sp %s r4 0, Most\n' "$2" "$2" "$last" >"$work/walks/states.txt"
    else
        printf 'tower.s; run 5; reg E 800D; reg D 3FFC0000; force %X : NoStop\n' $(($2 - 1)) >"$work/walks/states.txt"
    fi
    (cd "$work" && valgrind --tool=callgrind --callgrind-out-file="$work/callgrind" \
        "$cases/out/test_machine_main" >"$work/out" 2>"$work/err")
    grep -qx "walks/states.txt: 1 of 1" "$work/out" || { echo "$1, $2 frames: another answer" >&2; exit 1; }
    awk '/Collected/ { print $4 }' "$work/err"
}

for kind in walk force; do
    one=$(instructions "$kind" 1)
    for frames in 8192 32768 65536; do
        all=$(instructions "$kind" "$frames")
        awk -v kind="$kind" -v frames="$frames" -v cost=$((all - one)) 'BEGIN { printf "%s, %d frames: %.1f host instructions a frame\n", kind, frames, cost / (frames - 1) }'
    done
done
