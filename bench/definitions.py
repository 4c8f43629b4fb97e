#!/usr/bin/env python3
"""Lists the definitions that a definition rests on, file by file, with their lines: what a reader has to believe to believe it.

usage: bench/definitions.py CRATE.FILE.NAME.. [-- CRATE.FILE.NAME..]

A name is that of a definition in crates/CRATE/specs/FILE.antt. Those after `--` are taken as believed: what they rest on isn't listed. A row
says which of a file's definitions others ask for. Types of the code (`declared`) and the toolkit's own definitions are left out.
docs/inside/headline.md has two such lists."""
import os
import re
import sys

TOP = os.path.dirname(os.path.dirname(os.path.abspath(__file__)))
NAME = r"[^\s(){}\[\],;.:]+"
IMPORT = re.compile(r"^(?:pub )?use Rattle\.([^\s{]+?)(?:\.\{([^}]*)\}| as (\S+))?\s*$", re.M)
HEAD = re.compile(r"(?:(?:abbrev|unfoldable|pub) )*(?:record |data )?([^\s:({]+)(?=[\s:({])")


def texts():
    """The text of each specs file, by its crate and its module."""
    found = {}
    for crate in sorted(os.listdir(f"{TOP}/crates")):
        base = f"{TOP}/crates/{crate}/specs"
        for at, _, names in os.walk(base):
            for name in names:
                if name.endswith(".antt"):
                    path = f"{at}/{name}"
                    module = os.path.relpath(path, base)[:-5].replace("/", ".")
                    with open(path, encoding="utf-8") as file:
                        found[crate, module] = file.read()
    return found


TEXTS = texts()


def handed_on():
    """What a crate hands on of other crates: by specs/Lib.antt whole, and by a file specs/X.antt single files of X."""
    found = {}
    for (crate, module), text in TEXTS.items():
        inside = [] if module == "Lib" else [module]
        for it in re.finditer(r"^pub use Rattle\.([^\s{]+?)(?: as (\S+))?$", text, re.M):
            path = it[1].split(".")
            found[crate, ".".join([*inside, it[2] or path[-1]])] = path
    return found


HANDED_ON = handed_on()


def home(path):
    """The crate and module that a path names, or None for a type of the code."""
    while True:
        crate, rest = path[0], path[2:]
        if not rest or rest[0] == "declared":
            return None
        length = next((n for n in (1, 2) if (crate, ".".join(rest[:n])) in HANDED_ON), None)
        if length is None:
            break
        path = HANDED_ON[crate, ".".join(rest[:length])] + rest[length:]
        if path[1] != "specs":
            path = [path[0], "specs", *path[1:]]
    for length in range(len(rest), 0, -1):
        if (crate, ".".join(rest[:length])) in TEXTS:
            return crate, ".".join(rest[:length])
    return None


def read(key):
    """A file's imports, by their name there, and its definitions, each with its lines."""
    imports, items, name = {}, {}, None
    for it in IMPORT.finditer(TEXTS[key]):
        path = it[1].split(".")
        if path[0] == "std" or it[2] is None:
            continue
        for one in it[2].split(","):
            said = re.fullmatch(r"\s*(\S+)(?: as (\S+))?\s*", one)
            imports[said[2] or said[1]] = path, said[1]
    for line in TEXTS[key].split("\n"):
        if not line.strip() or line.startswith(("use ", "pub use ", "pub mod ", "mod ", "--")):
            continue
        begun = HEAD.match(line)
        if begun and not line[0].isspace() and not line.startswith("unfolding"):
            name = begun[1]
        items.setdefault(name, []).append(line)
    return imports, items


READ = {key: read(key) for key in TEXTS}


def visit(key, name, seen, asked):
    imports, items = READ[key]
    if name not in items:
        # a field or a variant
        name = next((it for it, lines in items.items() if any(re.match(rf"\s+(pub )?{re.escape(name)} :", line) for line in lines)), None)
    if name is None or (key, name) in seen:
        return name
    seen[key, name] = len(items[name])
    for word in sorted(set(re.findall(NAME, "\n".join(items[name])))):
        if word in imports:
            to = home(imports[word][0])
            if to:
                found = visit(to, imports[word][1], seen, asked)
                asked.add((to, found))
        elif word in items and word != name:
            visit(key, word, seen, asked)
    return name


def named(words):
    return [((it.split(".")[0], ".".join(it.split(".")[1:-1])), it.split(".")[-1]) for it in words]


def main(words):
    split = words.index("--") if "--" in words else len(words)
    seen, asked = {it: 0 for it in named(words[split + 1 :])}, set(named(words[:split]))
    believed = set(seen)
    for key, name in named(words[:split]):
        if key not in TEXTS or visit(key, name, seen, asked) is None:
            sys.exit(f"no definition {name} in crates/{key[0]}/specs/{key[1]}.antt")
    rows = {}
    for key, name in sorted(it for it in seen if it not in believed):
        rows.setdefault(key, []).append(name)
    for key, names in rows.items():
        told = [it for it in names if (key, it) in asked]
        print(f"crates/{key[0]}/specs/{key[1].replace('.', '/')}.antt: {sum(seen[key, it] for it in names)} lines: {' '.join(told)}")
    print(f"{len(rows)} files, {sum(seen.values())} lines")


main(sys.argv[1:])
