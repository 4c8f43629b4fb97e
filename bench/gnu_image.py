#!/usr/bin/env python3
"""Writes an image with so many generic entries of GNU's, by the layout of docs/rules/elf.md: bench/gnu_cost.sh measures with it.

usage: bench/gnu_image.py ROWS own|shared

Each row is of two bytes of code, `bx lr`, which one call-site record without a landing pad covers. With `own` each has an area of its own,
with `shared` all have the same one."""
import struct
import sys

CODE = 0x8000


def halves(*codes):
    return struct.pack(f"<{len(codes)}H", *codes)


def words(*values):
    return struct.pack(f"<{len(values)}I", *values)


def prel31(target, place):
    return (target - place) & 0x7FFFFFFF


def area(place):
    # the personality routine, three codes, and the area: no start for pads, no types, four bytes of records
    return words(prel31(CODE, place), 0x00B0B0B0) + bytes([0xFF, 0xFF, 0x01, 4, 0, 2, 0, 0])


def file_of(rows, shared):
    code = halves(*[0x4770] * rows)
    start = (CODE + len(code) + 0xFFF) // 0x1000 * 0x1000
    count = 1 if shared else rows
    tables = b"".join(area(start + 16 * k) for k in range(count))
    index = start + len(tables)
    places = [start + 16 * (0 if shared else k) for k in range(rows)]
    data = tables + b"".join(words(prel31(CODE + 2 * k, index + 8 * k), prel31(places[k], index + 8 * k + 4)) for k in range(rows))
    segments = [(CODE, code, 5), (start, data, 4)]

    names = [b"_start", b"__gxx_personality_v0", b"$t"]
    values = [(CODE + 1, 2, 0x12, 1), (CODE, 0, 0x11, 1), (CODE, 0, 0x00, 1)]
    strings, table = b"\0", bytes(16)
    for name, (value, size, info, section) in zip(names, values):
        table += words(len(strings), value, size) + bytes([info, 0]) + halves(section)
        strings += name + b"\0"

    at = 52 + 32 * 3
    body, at_file = b"", []
    for _, content, _ in segments:
        body += bytes(-(at + len(body)) % 4)
        at_file.append(at + len(body))
        body += content
    body += bytes(-(at + len(body)) % 4)
    table_at = at + len(body)
    strings_at = table_at + len(table)
    titles = [b".text", b".rodata", b".symtab", b".strtab", b".shstrtab"]
    titles_at = strings_at + len(strings)
    title_bytes, title_of = b"\0", []
    for title in titles:
        title_of.append(len(title_bytes))
        title_bytes += title + b"\0"
    sections_at = titles_at + len(title_bytes)
    padding = bytes(-sections_at % 4)
    sections_at += len(padding)

    programs = b""
    for (address, content, rights), place in zip(segments, at_file):
        programs += words(1, place, address, address, len(content), len(content), rights, 4)
    programs += words(0x70000001, at_file[1] + index - start, index, index, 8 * rows, 8 * rows, 4, 4)

    sections = bytes(40)
    for i, ((address, content, rights), place) in enumerate(zip(segments, at_file)):
        sections += words(title_of[i], 1, 6 if rights == 5 else 2, address, place, len(content), 0, 0, 4, 0)
    sections += words(title_of[2], 2, 0, 0, table_at, len(table), 4, 1, 4, 16)
    sections += words(title_of[3], 3, 0, 0, strings_at, len(strings), 0, 0, 4, 0)
    sections += words(title_of[4], 3, 0, 0, titles_at, len(title_bytes), 0, 0, 4, 0)
    head = b"\x7fELF" + bytes([1, 1, 1]) + bytes(9)
    head += halves(2, 40) + words(1, CODE + 1, 52, sections_at, 0x05000000) + halves(52, 32, 3, 40, 6, 5)
    return head + programs + body + table + strings + title_bytes + padding + sections


sys.stdout.buffer.write(file_of(int(sys.argv[1]), sys.argv[2] == "shared"))
