#!/usr/bin/env python3
"""Makes an image that `check` takes of one that g++ linked, so that a check of much real code can be measured. Words: IMAGE NEW.
Each table of the generic model (IHI 0038) becomes one of personality index 1 with the same unwinding codes and no descriptors; and each function
of which standard input has a line `NAME+OFFSET: CAUSE .. at ADDRESS`, as `ehabi_audit` writes it (all numbers hexadecimal), begins with `bx lr`,
so that none of its calls is reached. The code of the other functions, their entries and all symbols stay."""
import re
import struct
import sys

EXIDX, LOAD, CANTUNWIND, FINISH, BX_LR = 0x70000001, 1, 1, 0xB0, 0x4770

image = bytearray(open(sys.argv[1], "rb").read())


def rows(start, size, count, form):
    return [struct.unpack_from(form, image, start + k * size) for k in range(count)]


head = struct.unpack_from("<HHIIIIIHHHHHH", image, 16)
loads = [it for it in rows(head[4], head[8], head[9], "<8I") if it[0] == LOAD]
index = next(it for it in rows(head[5], head[10], head[11], "<10I") if it[1] == EXIDX)


def place(address):
    """The offset in the file of an address."""
    return next(it[1] + address - it[2] for it in loads if it[2] <= address < it[2] + it[4])


def word(address):
    return struct.unpack_from("<I", image, place(address))[0]


def target(address):
    """What the low 31 bits of a word lead to, as a signed number from the word's own address."""
    way = word(address) & 0x7FFFFFFF
    return (address + way - ((way & 0x40000000) << 1)) & 0xFFFFFFFF


def make_compact(table):
    """A generic table: the personality routine, and a word of how many more and three codes. The new one has as many words, and then the end
    of its descriptors in place of the first word of the language's data."""
    more = word(table + 4) >> 24
    codes = list(struct.pack(">I", word(table + 4))[1:])
    for k in range(more):
        codes += struct.pack(">I", word(table + 8 + 4 * k))
    new = [0x81, more + 1, *codes]
    new += [FINISH] * (4 * (more + 2) - len(new))
    words = struct.unpack(f">{more + 2}I", bytes(new))
    struct.pack_into(f"<{more + 3}I", image, place(table), *words, 0)


for row in range(index[3], index[3] + index[5], 8):
    second = word(row + 4)
    if second != CANTUNWIND and second >> 31 == 0 and word(target(row + 4)) >> 31 == 0:
        make_compact(target(row + 4))
for line in sys.stdin:
    told = re.search(r"\+([0-9A-F]+): .* at ([0-9A-F]{8})$", line)
    if told:
        struct.pack_into("<H", image, place(int(told[2], 16) - int(told[1], 16)), BX_LR)
open(sys.argv[2], "wb").write(image)
