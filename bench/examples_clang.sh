#!/usr/bin/env bash
# Which examples another assembler reads: each source of examples/ is given to clang's assembler for Armv6-M. Prints a line each,
# with clang's first complaint where it refuses one, and then how many were read. The status is 1 where one was refused. Where
# clang is not installed, a line says so. Needs no build of the program. CLANG names another clang.
set -u
top=$(cd "$(dirname "$0")/.." && pwd)
clang=${CLANG:-clang}
command -v "$clang" >/dev/null || { echo "$clang is not installed"; exit 0; }
work=$(mktemp -d)
trap 'rm -rf "$work"' EXIT
"$clang" --version | head -n 1
all=0
read=0
for source in "$top"/examples/*.s "$top"/examples/check/*.s; do
    name=${source#"$top"/}
    all=$((all + 1))
    if (cd "$top" && "$clang" --target=armv6m-none-eabi -c -o "$work/object" "$name") 2>"$work/said"; then
        read=$((read + 1))
        echo "read: $name"
    else
        echo "refused: $(grep -m 1 error: "$work/said" || echo "$name")"
    fi
done
echo "$read of $all are read"
[ "$read" -eq "$all" ]
