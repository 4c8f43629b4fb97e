#!/usr/bin/env bash
# What `check` costs on images that are made to cost it much, each at a size and at twice the size: gates under descriptors of which none
# is in scope, calls under cleanups in scope that have one landing pad, an executable segment of zeros, functions under one table of
# descriptors, gates under an entry of many code bytes, and types that overlap. Prints a line each, with the answer, seconds and
# megabytes. The larger ones are near the limits of docs/rules/elf.md and docs/rules/acceptance.md, or at them. A run is cut off after
# 300 seconds. How long it takes and what it holds is said of the build that is measured: one from `rt try` has run-time checks
# and takes many times as long. Needs GNU time and python3. `EHABI_RUN=PROGRAM bench/check_cost.sh` measures another build of the program.
set -eu
top=$(cd "$(dirname "$0")/.." && pwd)
work=$(mktemp -d)
trap 'rm -rf "$work"' EXIT
program=${EHABI_RUN:-}
[ -n "$program" ] || { "$top/ehabi_run" >/dev/null || true; program=$top/out/ehabi_run; }

cat >"$work/make.py" <<'PYTHON'
import struct, sys

CODE, INDEX, TABLE, TYPES = 0x8000, 0x100000, 0x200000, 0x300000
PUSH, POP = 0xB510, 0xBD10  # push {r4, lr}; pop {r4, pc}
RETURN = 0x4770             # bx lr
GATE = 0xDF01               # svc #1
POPS = [0xA8]               # the code that pops r4 and lr
CANT_UNWIND = lambda place: 1

def words(*numbers):
    return b"".join(struct.pack("<I", n & 0xFFFFFFFF) for n in numbers)

def halfwords(*numbers):
    return b"".join(struct.pack("<H", n) for n in numbers)

def prel31(place, to):
    return (to - place) & 0x7FFFFFFF

def table_at(offset):
    return lambda place: prel31(place, TABLE + offset)

def call(at, to):
    off = to - (at + 4)
    s = (off >> 31) & 1
    j1, j2 = ((1 - (off >> k & 1)) ^ s for k in (23, 22))
    return halfwords(0xF000 | s << 10 | (off >> 12) & 0x3FF, 0xD000 | j1 << 13 | j2 << 11 | (off >> 1) & 0x7FF)

# a table's first words, with personality 1 or 2: two codes stand in the first word, the rest after it
def code_words(personality, codes):
    more = max(0, (len(codes) - 2 + 3) // 4)
    codes = codes + [0xB0] * (2 + 4 * more - len(codes))
    out = words(0x80000000 | personality << 24 | more << 16 | codes[0] << 8 | codes[1])
    for k in range(more):
        out += bytes(reversed(codes[2 + 4 * k : 6 + 4 * k]))
    return out

# a table with cleanups of these scopes (length, offset), all with one landing pad
def cleanups(scopes, pad):
    out = bytearray(code_words(2, POPS))
    for length, offset in scopes:
        out += words(length, offset, prel31(TABLE + len(out) + 8, pad))
    return bytes(out + words(0))

# segments are (address, bytes, size in memory, rights); symbols (name, value, size, info)
def elf(segments, index, symbols):
    count = len(segments) + 1
    at, body = 52 + 32 * count, bytearray()
    headers = bytearray()
    for address, data, size, rights in segments:
        body += bytes(-(at + len(body)) % 4)
        place = at + len(body)
        headers += struct.pack("<8I", 1, place, address, address, len(data), size, rights, 4)
        if address == INDEX:
            headers += struct.pack("<8I", 0x70000001, place, address, address, len(data), len(data), 4, 4)
        body += data
    strings, places, table = bytearray(b"\0"), {}, bytearray(16)
    for name, value, size, info in symbols:
        if name not in places:
            places[name] = len(strings)
            strings += name.encode() + b"\0"
        table += struct.pack("<IIIBBH", places[name], value, size, info, 0, 1)
    body += bytes(-(at + len(body)) % 4)
    table_place = at + len(body)
    body += table
    string_place = at + len(body)
    body += strings + bytes(-len(strings) % 4)
    section_place = at + len(body)
    head = b"\x7fELF\x01\x01\x01" + bytes(9)
    head += struct.pack("<HHIIIIIHHHHHH", 2, 40, 1, CODE | 1, 52, section_place, 0x05000000, 52, 32, count, 40, 3, 0)
    sections = bytes(40)
    sections += struct.pack("<10I", 0, 2, 0, 0, table_place, len(table), 2, 2, 4, 16)
    sections += struct.pack("<10I", 0, 3, 0, 0, string_place, len(strings), 0, 0, 1, 0)
    return head + bytes(headers) + bytes(body) + sections

def image(code, functions, rows, table=b"", size=0, segments=(), symbols=()):
    index = bytearray()
    for start, body in rows:
        index += words(prel31(INDEX + len(index), start), body(INDEX + len(index) + 4))
    parts = [(CODE, code, max(size, len(code)), 5), (INDEX, bytes(index), len(index), 4)]
    if table:
        parts.append((TABLE, table, len(table), 4))
    names = [("$t", CODE, 0, 0)] + [(f"f{k}", a | 1, n, 0x12) for k, (a, n) in enumerate(functions)]
    return elf(parts + list(segments), index, names + list(symbols))

def one_function(code, table):
    return image(code, [(CODE, len(code))], [(CODE, table_at(0)), (CODE + len(code), CANT_UNWIND)], table)

def gates(count, descriptors):
    code = halfwords(PUSH, *[GATE] * count, POP)
    return one_function(code, cleanups([(2, 2 * count + 4)] * descriptors, CODE))

def calls(count, descriptors):
    code = halfwords(PUSH) + b"".join(call(CODE + 2 + 4 * k, CODE) for k in range(count)) + halfwords(POP)
    pad = CODE + len(code)
    return one_function(code + halfwords(POP), cleanups([(4 * count + 2, 0)] * descriptors, pad))

def zeros(size):
    return image(halfwords(RETURN), [(CODE, 0)], [(CODE, lambda place: 0x80B0B0B0)], size=size)

def shared(functions, descriptors):
    code = b"".join(halfwords(PUSH) + call(CODE + 8 * k + 2, CODE) + halfwords(POP) for k in range(functions))
    table = cleanups([(2, 8 * functions + 2)] * descriptors, CODE)
    return image(code, [(CODE + 8 * k, 8) for k in range(functions)], [(CODE, table_at(0))], table)

def codes(count, code_bytes):
    code = halfwords(PUSH, *[GATE] * count, POP)
    return one_function(code, code_words(1, [0x00, 0x40] * ((code_bytes - 1) // 2) + POPS) + words(0))

# each type has 255 bases, which are the words of the types after it: its own words are so chosen that all these are one class, which
# stands where a vtable's pointer leads
def types(count):
    vmi, one = TYPES, TYPES + 0x40
    name = TYPES + 0x80
    first = name + 1028
    data = bytearray(first - TYPES)
    data[8:16] = words(one + 8, name + 1023)
    data[name - TYPES : name - TYPES + 1024] = b"x" * 1024
    data += words(vmi + 8, name, vmi + 8, 255) * (count + 128)
    symbols = [
        ("_ZTVN10__cxxabiv121__vmi_class_type_infoE", vmi, 0, 0x11),
        ("_ZTVN10__cxxabiv117__class_type_infoE", one, 0, 0x11),
    ] + [("_ZTI", first + 16 * k, 0, 0x11) for k in range(count)]
    code = halfwords(RETURN)
    return image(code, [(CODE, 2)], [(CODE, lambda place: 0x80B0B0B0)], segments=[(TYPES, bytes(data), len(data), 4)], symbols=symbols)

sys.stdout.buffer.write(globals()[sys.argv[1]](*map(int, sys.argv[2:])))
PYTHON

# $1 names the image; after it stand the maker's words
measure() {
    local name=$1 begun status=0
    shift
    python3 "$work/make.py" "$@" >"$work/image"
    begun=$(date +%s%N)
    timeout 300 /usr/bin/time -f %M -o "$work/memory" "$program" check "$work/image" >"$work/said" 2>&1 || status=$?
    awk -v name="$name" -v ns="$(($(date +%s%N) - begun))" -v memory="$(tail -n 1 "$work/memory")" -v bytes="$(wc -c <"$work/image")" \
        -v status="$status" -v said="$(tr '\n' ' ' <"$work/said" | cut -c 1-60)" \
        'BEGIN { printf "%s (%d bytes): status %d, %s: %.2f s, %.0f MB\n", name, bytes, status, said, ns / 1e9, memory / 1000 }'
}

measure '8,000 gates under 8,000 descriptors, none in scope' gates 8000 8000
measure '16,000 gates under 16,000 descriptors, none in scope' gates 16000 16000
measure '8,000 calls under 20,000 cleanups in scope, one pad' calls 8000 20000
measure '16,000 calls under 40,000 cleanups in scope, one pad' calls 16000 40000
measure 'an executable segment of 512 KB of zeros' zeros 500000
measure 'an executable segment of 1 MB of zeros' zeros 1000000
measure '2,000 functions under one table of 32,000 descriptors' shared 2000 32000
measure '4,000 functions under one table of 64,000 descriptors' shared 4000 64000
measure '8,000 gates under 450 code bytes' codes 8000 450
measure '15,000 gates under 900 code bytes' codes 15000 900
measure '30,000 overlapping types' types 30000
measure '60,000 overlapping types' types 60000
