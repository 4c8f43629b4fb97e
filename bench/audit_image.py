#!/usr/bin/env python3
"""Writes the image that the stored run of ehabi_audit audits (crates/ehabi_audit/data/unwell.elf), by the layout of docs/rules/elf.md.

main is `push {r3, r4, lr}; movs r4, #1; bl leaf; pop {r3, r4, pc}`, and its entry takes nothing back. leaf is `bx lr`, and its entry takes
nothing back. far is `push {r7, lr}; svc #18; pop {r7, pc}`, and its entry's codes are reserved. The type symbol leads to zeros.
"""
import struct
import sys

MAIN, LEAF, FAR, INDEX, TYPE = 0x8000, 0x8010, 0x20000000, 0x8100, 0x8180
ROWS = [(MAIN, 0x80B0B0B0), (LEAF, 0x80B0B0B0), (FAR, 0x8FB0B0B0)]


def halves(*codes):
    return struct.pack(f"<{len(codes)}H", *codes)


def words(*values):
    return struct.pack(f"<{len(values)}I", *values)


def prel31(target, place):
    return (target - place) & 0x7FFFFFFF


def put(memory, start, at, data):
    memory[at - start:at - start + len(data)] = data


def file_of():
    low = bytearray(0x200)
    put(low, MAIN, MAIN, halves(0xB518, 0x2401, 0xF000, 0xF804, 0xBD18))
    put(low, MAIN, LEAF, halves(0x4770))
    for i, (start, entry) in enumerate(ROWS):
        place = INDEX + 8 * i
        put(low, MAIN, place, words(prel31(start, place), entry))
    high = halves(0xB580, 0xDF12, 0xBD80)
    segments = [(MAIN, bytes(low)), (FAR, high)]

    names = [b"main", b"leaf", b"far", b"_ZTI1A"]
    values = [(MAIN + 1, 10, 0x12, 1), (LEAF + 1, 2, 0x12, 1), (FAR + 1, 6, 0x12, 2), (TYPE, 8, 0x11, 1)]
    strings, table = b"\0", bytes(16)
    for name, (value, size, info, section) in zip(names, values):
        table += words(len(strings), value, size) + bytes([info, 0]) + halves(section)
        strings += name + b"\0"

    heads = 3
    at = 52 + 32 * heads
    body, places = b"", []
    for _, data in segments:
        body += bytes(-(at + len(body)) % 4)
        places.append(at + len(body))
        body += data
    body += bytes(-(at + len(body)) % 4)
    table_at = at + len(body)
    strings_at = table_at + len(table)
    titles = [b".seg0", b".seg1", b".symtab", b".strtab", b".shstrtab"]
    titles_at = strings_at + len(strings)
    title_bytes, title_of = b"\0", []
    for title in titles:
        title_of.append(len(title_bytes))
        title_bytes += title + b"\0"
    sections_at = titles_at + len(title_bytes)
    padding = bytes(-sections_at % 4)
    sections_at += len(padding)

    programs = b""
    for (start, data), place in zip(segments, places):
        programs += words(1, place, start, start, len(data), len(data), 5, 4)
    index_size = 8 * len(ROWS)
    programs += words(0x70000001, places[0] + INDEX - MAIN, INDEX, INDEX, index_size, index_size, 4, 4)

    sections = bytes(40)
    for i, ((start, data), place) in enumerate(zip(segments, places)):
        sections += words(title_of[i], 1, 6, start, place, len(data), 0, 0, 4, 0)
    sections += words(title_of[2], 2, 0, 0, table_at, len(table), 4, 1, 4, 16)
    sections += words(title_of[3], 3, 0, 0, strings_at, len(strings), 0, 0, 4, 0)
    sections += words(title_of[4], 3, 0, 0, titles_at, len(title_bytes), 0, 0, 4, 0)

    head = b"\x7fELF" + bytes([1, 1, 1]) + bytes(9)
    head += halves(2, 40) + words(1, MAIN + 1, 52, sections_at, 0x05000000) + halves(52, 32, heads, 40, 6, 5)
    return head + programs + body + table + strings + title_bytes + padding + sections


sys.stdout.buffer.write(file_of())
