#!/usr/bin/env python3
"""layers.py [TOP] [--brief]: reads crates.txt and the imports of crates/, and says where they are untrue to the layers.

The groups are the blocks of crates.txt that a line `## NAME` heads, lowest first. Each of these is said, with its place:

- a crate lists a library that it doesn't use, or uses one that it doesn't list;
- a crate stands in crates.txt before one that it uses, or uses one of a group above its own;
- an import names a definition by a crate that doesn't define it, or one that isn't there. `Rattle.M.specs.H.NAME` may name a definition of
  the crate `H` in a crate that doesn't list `H`, and `M` hands it on in its file `specs/H.antt`, which has nothing else;
- a crate hands on what another defines, but in such a file, and for `HANDED_ON`: what the specification of a crate gives to its users;
- there are more than `MOST_WAYS` ways down from the libraries. The toolkit walks each of them several times in a gate, at about 45
  microseconds a way, so that crates high up can't list every crate whose definitions they name;
- a type name stands for several types of one group. Those of several groups are listed with `--all`.

The status is 1 where something was found.
"""
import collections
import functools
import os
import re
import sys

IMPORT = re.compile(
    r"^(?P<head>[ \t]*(?:pub[ \t]+)?(?:ghost[ \t]+)?use[ \t]+)(?P<path>Rattle(?:\.[\w\-']+)+)(?P<rest>[^\n]*(?:\{[^}]*\})?[^\n]*)$", re.M
)
USE = re.compile(r"^[ \t]*(?P<pub>pub[ \t]+)?use[ \t]+(?P<path>Rattle(?:\.[\w\-']+)+)(?P<rest>[^\n]*)$", re.M)
MOD = re.compile(r"^[ \t]*(?P<pub>pub[ \t]+)?mod[ \t]+(?P<name>[\w\-']+)[ \t]*$", re.M)
TYPE = re.compile(r"^[ \t]*pub(?:\([^)]*\))?[ \t]+(?:struct|enum|union|trait|type)[ \t]+(\w+)", re.M)

MOST_WAYS = 1_000_000

# Types that a crate's users get from it, and that stand in a crate below: CRATE: the crates that define them.
HANDED_ON = {
    "thumb_encode": {"thumb_isa"},
    "asm_read": {"asm_statements"},
    "asm_object": {"asm_layout", "asm_relocatable"},
    "eh_index": {"eh_codes"},
    "eh_machine": {"eh_gates"},
    "cmd_perform": {"run_flat"},
}


def read(path):
    with open(path, encoding="utf-8") as it:
        return it.read()


class Crate:
    def __init__(self, name, settings, deps, notes, group):
        self.name, self.settings, self.deps, self.notes, self.group = name, settings, deps, notes, group


class House:
    """A repository: crates.txt and the import graph of the files."""

    def __init__(self, top):
        self.top = top
        self.crates = {}
        notes, group = [], ""
        for line in read(f"{top}/crates.txt").splitlines():
            said, _, note = line.partition("#")
            if line.startswith("##"):
                group, notes = line.lstrip("# "), []
            elif said.strip():
                head, _, deps = said.partition(":")
                words = head.split()
                self.crates[words[0]] = Crate(words[0], words[1:], deps.split(), notes, group)
                notes = []
            elif note.strip():
                notes.append(note.strip())
        self.lib = functools.lru_cache(None)(self._lib)
        self.home = functools.lru_cache(None)(self._home)

    def folder(self, crate):
        return f"{self.top}/crates/{crate}"

    def files(self, crate, *parts):
        for part in parts or ("src", "specs", "proofs"):
            for at, folders, names in os.walk(f"{self.folder(crate)}/{part}"):
                folders.sort()
                for name in sorted(names):
                    if name.endswith((".rt", ".antt")):
                        yield f"{at}/{name}"

    def _lib(self, file):
        """Returns what a module's file hands on: by the last word of its path each `pub use` of a module, and its items handed on by name."""
        if not os.path.isfile(file):
            return {}, {}
        modules, items = {}, {}
        for it in USE.finditer(read(file)):
            if not it["pub"]:
                continue
            rest = it["rest"].strip()
            if rest.startswith(".{"):
                for name in re.findall(r"[^\s,{}]+(?:[ \t]+as[ \t]+[^\s,{}]+)?", rest[1:]):
                    words = name.split()
                    items[words[-1]] = (it["path"], words[0])
            elif " as " in f" {rest} ":
                modules[rest.split()[-1]] = it["path"]
            else:
                modules[it["path"].split(".")[-1]] = it["path"]
        return modules, items

    def _home(self, path):
        """Returns the path with each crate that only hands it on left out."""
        return self.way(path)[0]

    def way(self, path):
        """Returns where a path leads, and the lines that hand it on: their files, and what they name."""
        words = path.split(".")
        if len(words) < 4 or words[1] not in self.crates or words[2] not in ("specs", "proofs"):
            return path, ()
        at = f"{self.folder(words[1])}/{words[2]}"
        file = f"{at}/Lib.antt"
        for n in range(3, len(words)):
            modules, _ = self.lib(file)
            if words[n] in modules:
                home, more = self.way(".".join([modules[words[n]], *words[n + 1 :]]))
                return home, ((file, modules[words[n]]), *more)
            at = f"{at}/{words[n]}"
            file = f"{at}.antt"
            if not os.path.isfile(file):
                break
        return path, ()


def bare(text, is_rt):
    """Returns the text without comments."""
    return re.sub(r"//[^\n]*", "", text) if is_rt else re.sub(r"(?m)(^|\s)--[^\n]*", "", text)


def used_by(house, crate):
    """Returns the libraries, of the repository and of the kit, that a crate's files name."""
    found = set()
    for file in house.files(crate):
        is_rt = file.endswith(".rt")
        text = bare(read(file), is_rt)
        found |= {it for it in re.findall(r"(?<![\w.])Rattle\.([a-z]\w*)", text)}
        if is_rt:
            found |= {it for it in re.findall(r"(?<![\w:])(?:::)?([a-z]\w*)::", text)}
            found |= {it for it in re.findall(r"\buse ([a-z]\w*)\s*(?:;|as\b)", text)}
    # (of the kit's libraries those that some crate lists: another word before :: is a module)
    known = set(house.crates) | {dep for it in house.crates.values() for dep in it.deps}
    return (found & known) - {crate}


def ways_down(house):
    """Returns in how many ways libraries of the repository are reached from its libraries."""

    @functools.lru_cache(None)
    def down(name):
        return 1 + sum(down(dep) for dep in house.crates[name].deps if dep in house.crates)

    return sum(down(name) for name in house.crates if not os.path.isfile(f"{house.folder(name)}/src/main.rt"))


def missing(house, crate, m):
    """Returns what an import names of another crate's files that they lack, or have for themselves alone. Modules that the toolkit makes are passed over."""
    words = house.home(m["path"]).split(".")
    if len(words) < 4 or words[1] not in house.crates or words[2] not in ("specs", "proofs") or words[1] == crate or words[3] in ("declared", "contracts"):
        return []
    at = f"{house.folder(words[1])}/{words[2]}"
    lib = f"{at}/Lib.antt"
    public = {it["name"]: bool(it["pub"]) for it in MOD.finditer(read(lib))} if os.path.isfile(lib) else {}
    if not public.get(words[3]):
        return [f"{m['path']}: {words[1]} hands out no {words[2]}/{words[3]}"]
    file = f"{at}/{'/'.join(words[3:])}.antt"
    body = re.match(r"\s*\.\{([^}]*)\}", m["rest"])
    if not os.path.isfile(file) or not body:
        return [] if os.path.isfile(file) or len(words) > 4 else [f"{m['path']}: no such file"]
    text, found = read(file), []
    for item in re.findall(r"[^\s,{}]+(?:[ \t]+as[ \t]+[^\s,{}]+)?", body[1]):
        name = item.split()[0]
        if "◌" not in name and not re.search(rf"(?<![\w\-'.]){re.escape(name)}(?![\w\-'])", text):
            found.append(f"{m['path']}.{{{name}}}")
    return found


def main():
    words = [it for it in sys.argv[1:] if not it.startswith("--")]
    top, brief = (words + ["."])[0], "--brief" in sys.argv
    house, found = House(top), collections.OrderedDict()
    group = {it.name: it.group for it in house.crates.values()}
    rank = list(dict.fromkeys(it.group for it in house.crates.values() if it.group))

    def note(kind, text):
        found.setdefault(kind, []).append(text)

    uses = {name: used_by(house, name) for name in house.crates}
    for name, it in house.crates.items():
        for dep in it.deps:
            if dep not in uses[name]:
                note("listed in crates.txt, and not used", f"{name}: {dep}")
        for dep in sorted(uses[name] - set(it.deps)):
            note("used, and not listed in crates.txt", f"{name}: {dep}")
    seen = set()
    for name, it in house.crates.items():
        for dep in it.deps:
            if dep in house.crates and dep not in seen:
                note("stands before a crate that it uses", f"{name}: {dep}")
        seen.add(name)
    for name in house.crates:
        if rank and group.get(name) not in rank:
            note("in no group", name)
        for dep in sorted(uses[name] & set(house.crates)):
            one, other = group.get(name), group.get(dep)
            if one in rank and other in rank and rank.index(other) > rank.index(one):
                note("uses a crate of a group above", f"{name} ({one.split(':')[0]}): {dep} ({other.split(':')[0]})")
    ways = 0
    for name in house.crates:
        for file in house.files(name):
            short, text = file[len(top) + 1 :], read(file)
            for m in IMPORT.finditer(text):
                line = text.count("\n", 0, m.start()) + 1
                is_pub = file.endswith(".antt") and m["head"].strip().startswith("pub")
                home = house.home(m["path"])
                words, own = m["path"].split("."), home.split(".")[1]
                if is_pub and own != name and file.endswith(f"/{own}.antt"):
                    continue
                by_way = len(words) > 4 and words[3] == own and own not in house.crates[name].deps
                if by_way:
                    ways += 1
                if is_pub and own != name:
                    note("hands on what another crate defines", f"{short}:{line}: {m['path']}")
                elif not is_pub and home != m["path"] and not by_way:
                    note("imports not from home", f"{short}:{line}: {m['path']} for {home}")
                if not is_pub:
                    for what in missing(house, name, m):
                        note("names what isn't there or isn't public", f"{short}:{line}: {what}")
            if file.endswith(".rt"):
                for m in re.finditer(r"^\s*pub use ([a-z]\w*)::[^;]*;", text, re.M):
                    if m[1] in house.crates and m[1] != name and m[1] not in HANDED_ON.get(name, ()):
                        note("hands on code of another crate", f"{short}: {' '.join(m[0].split())}")
    types = collections.defaultdict(list)
    for name in house.crates:
        for file in house.files(name, "src"):
            text = bare(read(file), True)
            for m in TYPE.finditer(text):
                types[m[1]].append((group.get(name) or "", f"{name}/{os.path.basename(file)}"))
    for word, places in sorted(types.items()):
        by_group = collections.defaultdict(list)
        for where, place in places:
            by_group[where].append(place)
        for where, several in by_group.items():
            if rank and len(several) > 1:
                note("type names that stand for several types of one group", f"{word} ({where.split(':')[0]}): {', '.join(several)}")
        if "--all" in sys.argv and (len(by_group) > 1 or not rank and len(places) > 1):
            note("type names that stand for types of several groups (for information)", f"{word}: {', '.join(place for _, place in places)}")
    down = ways_down(house)
    if down > MOST_WAYS:
        note("ways down from the libraries", f"{down:,}, and {MOST_WAYS:,} at most")
    if "--all" in sys.argv:
        print(f"{down:,} ways down from the libraries; {ways} imports by way of another crate (for information)")
    for kind, lines in found.items():
        print(f"{len(lines)} {kind}")
        for line in [] if brief else lines:
            print(f"    {line}")
    sys.exit(1 if [it for it in found if "for information" not in it] else 0)


main()
