#!/usr/bin/env bash
# How long `run` takes to read an ELF image of 1 MiB of memory with 65,536 symbols and 4,096 functions, and one of half of
# each. The image's code exits at once, so what is measured is the reading. Prints a line each. Needs perl.
set -eu
top=$(cd "$(dirname "$0")/.." && pwd)
work=$(mktemp -d)
trap 'rm -rf "$work"' EXIT
"$top/ehabi_run" >/dev/null || true

# image BYTES SYMBOLS FUNCTIONS: an ELF file with one read-only executable segment at 0x8000
image() {
    perl -e '
        my ($bytes, $symbols, $functions) = @ARGV;
        my $code = pack("v2", 0x2000, 0xdf00) . "\0" x ($bytes - 4);    # movs r0, #0; svc #0
        my ($table, $strings) = ("\0" x 16, "\0");
        for my $i (0 .. $symbols - 2) {
            my $name = "name_of_symbol_number_$i\0";
            my ($info, $value) = $i < $functions ? (0x12, 0x8000 + 64 * $i + 1) : (0x11, 0x8000 + $i % $bytes);
            $table .= pack("V3C2v", length $strings, $value, $i < $functions ? 64 : 1, $info, 0, 1);
            $strings .= $name;
        }
        my $names = "\0.symtab\0.strtab\0.shstrtab\0";
        my $at = 52 + 32;
        my ($table_at, $strings_at) = ($at + length $code, $at + length($code) + length $table);
        my $names_at = $strings_at + length $strings;
        my $sections_at = $names_at + length $names;
        my $header = pack("C16 v2 V V V V V v6", 0x7f, 0x45, 0x4c, 0x46, 1, 1, 1, (0) x 9, 2, 40, 1, 0x8001, 52, $sections_at, 0x05000000, 52, 32, 1, 40, 4, 3);
        my $program = pack("V8", 1, $at, 0x8000, 0x8000, length $code, length $code, 5, 4);
        my $sections = "\0" x 40
            . pack("V10", 1, 2, 0, 0, $table_at, length $table, 2, 1, 4, 16)
            . pack("V10", 9, 3, 0, 0, $strings_at, length $strings, 0, 0, 1, 0)
            . pack("V10", 17, 3, 0, 0, $names_at, length $names, 0, 0, 1, 0);
        print $header, $program, $code, $table, $strings, $names, $sections;
    ' "$@"
}

measure() {
    local begun ended
    image "$2" "$3" "$4" >"$work/image"
    begun=$(date +%s%N)
    "$top/out/ehabi_run" run "$work/image" 10 >"$work/out" </dev/null
    ended=$(date +%s%N)
    grep -q -- '-- exit 0' "$work/out" || { echo "$1: did not run" >&2; exit 1; }
    awk -v name="$1" -v ns=$((ended - begun)) 'BEGIN { printf "%s: %.3f s\n", name, ns / 1e9 }'
}

measure '512 KiB, 32,768 symbols, 2,048 functions' 524288 32768 2048
measure '1 MiB, 65,536 symbols, 4,096 functions' 1048576 65536 4096
