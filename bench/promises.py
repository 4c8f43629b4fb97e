#!/usr/bin/env python3
"""Checks docs/PROMISES.md against the sources, and writes rows to start from.

usage: bench/promises.py [TOP] [--page FILE] [--clauses] [--skeleton [CRATE..]]

TOP is the repository, the one of this script where none is given; the page is its docs/PROMISES.md or FILE. Wrong, with status 1, is:

- a row whose call isn't in the sources, or whose clause is none of its calls';
- a call of a row that has none of the row's clauses;
- a public call of a library crate that has a clause and no row;
- a row of a table of fields whose field its record doesn't have, and a field of the record that has no row;
- a promise above 20 words, and a page above 8,000.

--clauses   lists clauses of calls that no row names
--skeleton  writes a row for each public call without one, or for those of the crates named: its name, the first sentence of its `///`, its
            clauses. Their sentences are to be rewritten by hand.

A row's first cell names calls in backticks: `crate::call`, `crate::Type::method`, `crate::Trait::method`; a module stands there where a crate
has two calls of the name. After the first, `Type::method` is of the crate before it, and a name alone of the crate and type before it.
`crate::module::*`, `crate::Type::*` and `crate::*` are all public calls there that have no row of their own. The last cell names the clauses,
`result` for one without a name. The header of a table of fields is "Field of `Record`", or of several that have the fields; a record stands in
some crate's specs/. Library crates are those with src/lib.rt, but for `test_` and `bench_`."""
import argparse
import glob
import os
import re
import sys

sys.dont_write_bytecode = True
import items

MOST_WORDS, MOST_OF_PAGE = 20, 8000


class Row:
    """A row: the paths of its calls, each as its parts, its promise, its clauses and its line."""

    def __init__(self, paths, promise, clauses, line):
        self.paths, self.promise, self.clauses, self.line, self.calls = paths, promise, clauses, line, []


def cells_of(line):
    """The cells of a line of a table."""
    return [it.strip() for it in re.split(r"(?<!\\)\|", line.strip().strip("|"))]


def names_in(cell):
    """What stands in backticks."""
    return re.findall(r"`([^`]+)`", cell)


def paths_in(cell, crates):
    """The paths of a row's calls. One that begins with no crate goes on from the one before it: from its crate, or from all but its name."""
    paths = []
    for name in names_in(cell):
        parts = name.split("::")
        if parts[0] not in crates and paths:
            parts = [*(paths[-1][:1] if len(parts) > 1 else paths[-1][:-1]), *parts]
        paths.append(parts)
    return paths


def tables(text):
    """The tables of a page: the cells of the header, and of each row with its line."""
    found, is_inside = [], False
    for number, line in enumerate(text.split("\n"), 1):
        if line.startswith("|") and not is_inside:
            found.append((cells_of(line), []))
        elif line.startswith("|") and not re.fullmatch(r"[|\s:-]+", line):
            found[-1][1].append((number, cells_of(line)))
        is_inside = line.startswith("|")
    return found


class Calls:
    """The functions of all crates."""

    def __init__(self, top):
        self.top, self.groups = top, items.crates(top)
        self.of = {name: [it for it in items.crate(top, name) if it.kind == "fn"] for name in self.groups}

    def is_library(self, name):
        """Whether a crate's calls are for other crates."""
        return not name.startswith(("test_", "bench_")) and os.path.isfile(f"{self.top}/crates/{name}/src/lib.rt")

    def named(self, parts):
        """The functions that a path names; of `*` the public ones with a clause."""
        crate, *inner, name = parts
        found = []
        for it in self.of.get(crate, []):
            places = [*it.modules, *([it.owner] if it.owner else [])]
            is_there = places[len(places) - len(inner) :] == inner or name == "*" and places[: len(inner)] == inner
            # a method is named with its type
            if is_there and (it.name == name and (inner or not it.owner) and not it.of_trait or name == "*" and it.is_public and it.ensures):
                found.append(it)
        if name == "*":
            return found
        # a call that others can't name only where no public one has the name, and one in further modules only where no other has
        found = [it for it in found if it.is_public] or found
        nearest = min((len(it.modules) for it in found), default=0) if inner else None
        return [it for it in found if nearest in (None, len(it.modules))]

    def wanted(self):
        """The public calls of library crates that have a clause."""
        return [it for name in self.groups if self.is_library(name) for it in self.of[name] if it.is_public and it.ensures]


def fields_of(top, record):
    """The fields of a record of some crate's specs."""
    for path in sorted(glob.glob(f"{top}/crates/*/specs/**/*.antt", recursive=True)):
        with open(path, encoding="utf-8") as file:
            text = file.read()
        head = re.search(rf"^(?:pub )?record {re.escape(record)}(?=[\s:({{]).*\n((?:[ \t]+.*\n|\n|--.*\n)*)", text, re.M)
        if head:
            return re.findall(r"^\s+(?:pub )?([\w'-]+) :", head[1], re.M)
    return None


def read(text, calls, wrong):
    """The rows of a page's tables of calls. What is wrong with the tables goes to `wrong`."""
    rows, said = [], {}
    for header, lines in tables(text):
        records = names_in(header[0]) if header[0].startswith("Field of") else []
        for number, cells in lines:
            if len(cells) > 1 and len(cells[1].split()) > MOST_WORDS:
                wrong.append(f"line {number}: {len(cells[1].split())} words")
            for record in records:
                said.setdefault(record, {}).update({it: number for it in names_in(cells[0])})
            if header[0] == "Call" and len(cells) == 3 and names_in(cells[0]):
                rows.append(Row(paths_in(cells[0], calls.groups), cells[1], names_in(cells[2]), number))
            elif header[0] == "Call":
                wrong.append(f"line {number}: not a row of three cells with a call")
    for record, fields in said.items():
        known = fields_of(calls.top, record)
        wrong += [f"line {number}: no field {it} of a record {record}" for it, number in fields.items() if it not in (known or [])]
        wrong += [f"no row of the field {it} of {record}" for it in known or [] if it not in fields]
    return rows


def check(rows, calls, is_clauses):
    """What is wrong with rows of calls."""
    wrong, own, named = [], set(), {}
    # a `*` takes what is left, that of a type or module before that of its crate
    pairs = [(row, path, path[-1] == "*") for row in rows for path in row.paths]
    for row, path, is_star in sorted(pairs, key=lambda it: (it[2], -len(it[1]) if it[2] else 0)):
        found = [it for it in calls.named(path) if not (is_star and it in own)]
        if not found:
            wrong.append(f"line {row.line}: no call {'::'.join(path)}")
        elif not is_star and len(found) > 1:
            wrong.append(f"line {row.line}: {'::'.join(path)} is {' and '.join(it.place for it in found)}")
        row.calls += found
        own |= set(found)
    for row in rows:
        for clause in row.clauses:
            if not any(clause in it.ensures for it in row.calls):
                wrong.append(f"line {row.line}: no clause {clause} of {'::'.join(row.paths[0])}")
        for it in row.calls:
            named.setdefault(it, set()).update(row.clauses)
            if not set(it.ensures) & set(row.clauses):
                wrong.append(f"line {row.line}: {it.path()} has {' '.join(it.ensures) or 'no clause'}, and not {' '.join(row.clauses)}")
    wrong += [f"no row: {it.path()} ({it.place})" for it in calls.wanted() if it not in own]
    for it, clauses in named.items() if is_clauses else []:
        left = [clause for clause in it.ensures if clause not in clauses]
        if left:
            print(f"{it.path()}: no row names {' '.join(left)}")
    return wrong


def skeleton(calls, rows, crates):
    """Rows to start from, group by group."""
    own, group = {it for row in rows for it in row.calls}, None
    for it in calls.wanted():
        if it.crate not in crates if crates else it in own:
            continue
        if calls.groups[it.crate] != group:
            group = calls.groups[it.crate]
            print(f"\n## {group}\n\n| Call | Promise | Clause |\n|---|---|---|")
        said = re.split(r"(?<=[.!?])\s", it.doc)[0].rstrip(".")
        print(f"| `{it.path()}` | {said} | {', '.join(f'`{clause}`' for clause in it.ensures)} |")


def main():
    words = argparse.ArgumentParser(usage=__doc__.split("usage: ")[1].split("\n")[0])
    words.add_argument("top", nargs="?", default=os.path.dirname(os.path.dirname(os.path.abspath(__file__))))
    words.add_argument("--page")
    words.add_argument("--clauses", action="store_true")
    words.add_argument("--skeleton", nargs="*")
    asked = words.parse_args()
    calls, text, wrong = Calls(os.path.abspath(asked.top)), "", []
    page = asked.page or f"{asked.top}/docs/PROMISES.md"
    if os.path.isfile(page):
        with open(page, encoding="utf-8") as file:
            text = file.read()
    rows = read(text, calls, wrong)
    wrong += check(rows, calls, asked.clauses)
    if asked.skeleton is not None:
        skeleton(calls, rows, asked.skeleton)
        return
    count = len(text.split())
    wrong += [f"{count} words, above {MOST_OF_PAGE}"] if count > MOST_OF_PAGE else []
    for it in wrong:
        print(it)
    print(f"{len(rows)} rows, {len({it for row in rows for it in row.calls})} calls, {count} words; {len(wrong)} wrong")
    sys.exit(1 if wrong else 0)


if __name__ == "__main__":
    main()
