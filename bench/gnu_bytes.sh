#!/usr/bin/env bash
# Changes each of the 24 bytes of a C++ compiler's table to every other value, 6,120 images, and compares what `gnu` says of each with a reader
# of its own, written here from docs/rules/gnu-tables.md ("What is refused"): the fault of the entry, or that there is none. Prints how often each
# answer came, and what differs. The image is that of the first rows of crates/test_commands_main/data/gnu.txt. Needs python3.
# `EHABI_RUN=PROGRAM bench/gnu_bytes.sh` asks another build of the program.
set -eu
top=$(cd "$(dirname "$0")/.." && pwd)
work=$(mktemp -d)
trap 'rm -rf "$work"' EXIT
program=${EHABI_RUN:-}
[ -n "$program" ] || { "$top/ehabi_run" >/dev/null || true; program=$top/out/ehabi_run; }
cat >"$work/a.s" <<'SOURCE'
        .global main
        .type main, %function
main:   .fnstart
        .save {r4, lr}
        push {r4, lr}
        bl f
        movs r0, #1
        pop {r4, pc}
        bl __cxa_begin_catch
        bl __cxa_end_catch
        movs r0, #107
        bl putchar
        movs r0, #0
        pop {r4, pc}
        .personalityindex 0
        .handlerdata
        .word 0xA8B0B0, 0x010D00FF
        .word 0x0A040204, 0x101, _ZTIi(target2)
        .fnend
        .type f, %function
f:      .fnstart
        .save {r4, lr}
        push {r4, lr}
        movs r0, #4
        bl __cxa_allocate_exception
        movs r1, #7
        str r1, [r0]
        ldr r1, =_ZTIi
        movs r2, #0
        bl __cxa_throw
        .fnend
        .type __gxx_personality_v0, %function
__gxx_personality_v0: .fnstart
        bx lr
        .fnend
SOURCE
"$program" build "$work/a.s" >"$work/a.elf"
exec python3 - "$work" "$program" <<'PYTHON'
import collections, struct, subprocess, sys

work, program = sys.argv[1:]
file = bytearray(open(f"{work}/a.elf", "rb").read())
at = file.find(bytes.fromhex("B0B0A880"))  # the table's first word, for the compact model
file[at : at + 4] = bytes.fromhex("54FFFF7F")  # the way to the personality routine, 8030 from 80DC
PERSONALITY, START, RANGE, TOP, MOST = 0x8030, 0x8000, 0x1C, 0x30000000, 64
headers, count = struct.unpack_from("<I", file, 28)[0], struct.unpack_from("<H", file, 44)[0]
segments = [it for it in (struct.unpack_from("<8I", file, headers + 32 * k) for k in range(count)) if it[0] == 1]
_, offset, base, _, size, _, _, _ = segments[0]
place = base + at - offset

class Short(Exception):
    pass

def answer(file):
    bytes_ = file[offset : offset + size]

    def byte(i):
        if not 0 <= i < len(bytes_):
            raise Short
        return bytes_[i]

    def word(i):
        return sum(byte(i + k) << 8 * k for k in range(4))

    def leb(i, signed):
        value = 0
        for k in range(5):
            b = byte(i + k)
            if k == 4 and not signed and b > 15:
                raise Short
            value |= (b & 127) << 7 * k
            if b < 128:
                return (value - (1 << 7 * (k + 1)) if signed and b & 64 else value), i + k + 1
        raise Short

    def names_type(i):
        w = word(i)
        a = base + i + w & 0xFFFFFFFF
        return w == 0 or any(s[2] <= a < s[2] + s[5] and not s[6] & 2 for s in segments)

    i, shown = place - base, set()
    if word(i) >> 31:
        return "none"  # an entry of the compact model
    if (place + (word(i) ^ 0x40000000) - 0x40000000 ^ PERSONALITY) & 0xFFFFFFFE:
        return "Personality"
    try:
        words = word(i + 4) >> 24
        i += 8 + 4 * words
        if i > len(bytes_):
            raise Short
        if byte(i) != 0xFF or byte(i + 1) not in (0x00, 0x10, 0xFF):
            return "Format"
        types = None
        i += 2
        if bytes_[i - 1] != 0xFF:
            length, i = leb(i, False)
            types = i + length
        if byte(i) != 1:
            return "Format"
        length, i = leb(i + 1, False)
        end, before = i + length, 0
        if end > len(bytes_):
            raise Short
        while i < end:
            numbers = []
            for _ in range(4):
                number, i = leb(i, False)
                numbers.append(number)
            if i > end:
                raise Short  # the record runs past the end of the table
            start, length, pad, action = numbers
            if start < before or start + length > RANGE or (start | length | pad) & 1 or pad and START + pad >= TOP:
                shown.add("Order")
            before = start + length
            k = end + action - 1
            for step in range(MOST + 1 if action else 0):
                if step == MOST:
                    shown.add("Chain")
                    break
                number, k = leb(k, True)
                further, behind = leb(k, True)
                if number < 0 or number > 0 and (types is None or not names_type(types - 4 * number)):
                    shown.add("Filter")
                if further == 0:
                    break
                k += further
        if words == 255:
            shown.add("TooLong")
    except Short:
        return "Short"
    return next((it for it in ("Order", "Filter", "Chain", "TooLong") if it in shown), "none")

came, wrong = collections.Counter(), 0
for k in range(24):
    for value in range(256):
        if value != file[at + k]:
            changed = bytearray(file)
            changed[at + k] = value
            open(f"{work}/m.elf", "wb").write(changed)
            said = subprocess.run([program, "gnu", f"{work}/m.elf", "1000"], stdout=subprocess.PIPE, stderr=subprocess.DEVNULL).stdout
            got = said.split()[1].decode() if said.startswith(b"lsda: ") else "none"
            want = answer(changed)
            came[want] += 1
            if got != want:
                wrong += 1
                print(f"byte {k} as {value:02X}: {got}, wanted {want}")
print(", ".join(f"{name} {number}" for name, number in sorted(came.items())))
print(f"{wrong} of {sum(came.values())} differ")
sys.exit(wrong > 0)
PYTHON
