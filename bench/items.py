"""Reads the items of Rattle sources, for docs.py and promises.py of this folder: functions with their clauses, types with their fields.

`crate(top, name)` gives the items of crates/NAME/src, module by module. Only heads, names of clauses and `///` comments are read; bodies
and the texts of clauses are passed over."""
import os
import re

HEAD = re.compile(
    r"(?P<vis>pub(?:\([^)]*\))?\s+)?(?:(?:const|unsafe)\s+(?=fn\b))?"
    r"(?P<kind>fn|struct|enum|trait|const|static|type|mod|use|impl|macro_rules!|ghost)\s*(?P<name>\w+)?"
)
CLAUSE = re.compile(r"(ensures|requires)\b\s*(\w+)?\s*(?=\{)")
FIELD = re.compile(r"(?P<vis>pub(?:\([^)]*\))?\s+)?(?P<name>\w+)")
GAP = re.compile(r"\s+|///[^\n]*\n|//[^\n]*\n|#!?(?=\[)")
BLANKED = re.compile(r'//[^\n]*|/\*.*?\*/|b?r(#*)".*?"\1|b?"(?:\\.|[^"\\])*"|(?<!\w)b?\'(?:\\[^\']*|[^\\\'\n])\'', re.S)
OPEN, CLOSE = "([{", ")]}"


class Item:
    """An item: its crate, the modules down to it, the type or trait that it belongs to, its kind and its name."""

    def __init__(self, crate, modules, owner, kind, name, place):
        self.crate, self.modules, self.owner, self.kind, self.name, self.place = crate, modules, owner, kind, name, place
        # `is_pub` is what stands before it, `is_public` whether other crates can name it
        self.doc, self.is_pub, self.is_public = "", False, False
        # of a function: the trait whose method it is, and the names of its clauses, `result` for one without a name
        self.of_trait, self.ensures, self.requires = None, [], []

    def path(self):
        """Its name without modules, as docs/PROMISES.md has it."""
        return "::".join(filter(None, [self.crate, self.owner, self.name]))


def blanked(text):
    """The text with blanks for comments, strings and characters."""
    return BLANKED.sub(lambda it: re.sub(r"[^\n]", " ", it[0]), text)


def closing(code, at):
    """The place after the bracket that closes the one at `at`."""
    depth = 0
    for place in range(at, len(code)):
        depth += (code[place] in OPEN) - (code[place] in CLOSE)
        if depth == 0:
            return place + 1
    return len(code)


def find(code, at, marks):
    """The first place from `at` on, outside brackets, with one of the marks; or the end."""
    while at < len(code) and code[at] not in marks:
        at = closing(code, at) if code[at] in OPEN else at + 1
    return at


def without_generics(words):
    """What stands after the generics of an `impl`."""
    depth = 0
    for at, mark in enumerate(words):
        depth += (mark == "<") - (mark == ">" and words[at - 1] != "-")
        if depth == 0:
            return words[at + 1 :] if mark == ">" else words
    return words


class Source:
    """A file as it is read: its items, what it hands on by `pub use`, and its modules with whether they are `pub`."""

    def __init__(self, crate, modules, path, place):
        self.crate, self.modules, self.place = crate, modules, place
        with open(path, encoding="utf-8") as file:
            self.text = file.read()
        self.code = blanked(self.text)
        self.items, self.uses, self.inner = [], [], []
        self.read(0, len(self.code), None, None, False)

    def read(self, at, end, owner, trait, in_trait):
        """Reads the items of a block; `trait` is the one that an `impl` is of, `in_trait` says that the block is a public trait's own."""
        doc, is_test = [], False
        while at < end:
            gap = GAP.match(self.text, at)
            if gap and gap[0][0] == "#":
                at = closing(self.code, gap.end())
                is_test = is_test or self.text[gap.end() : at] in ("[test]", "[cfg(test)]")
            elif gap:
                doc += [gap[0][3:].strip()] if gap[0].startswith("///") else []
                at = gap.end()
            else:
                head = HEAD.match(self.code, at)
                at = self.item(head, " ".join(doc), owner, trait, in_trait, is_test) if head else self.passed(at)
                doc, is_test = [], False

    def passed(self, at):
        """The place after what is no item, as the call of a macro."""
        stop = find(self.code, at, "{;")
        return closing(self.code, stop) if self.code[stop : stop + 1] == "{" else stop + 1

    def item(self, head, doc, owner, trait, in_trait, is_test):
        """Reads an item, and answers the place after it."""
        kind, name, is_pub = head["kind"], head["name"], (head["vis"] or "").strip() == "pub"
        if kind == "use":
            stop = self.code.index(";", head.end())
            self.uses += [re.sub(r"\s*([:{},])\s*", r"\1", self.text[head.start("name") : stop].strip())] if is_pub else []
            return stop + 1
        if kind == "fn":
            return self.function(head, doc, owner, trait, is_pub or in_trait, is_test)
        if kind in ("const", "static", "type", "ghost"):
            if kind != "ghost" and name:
                self.add(kind, head, owner, doc, is_pub or in_trait)
            return find(self.code, head.end(), ";") + 1
        stop = find(self.code, head.end(), "{;")
        end = closing(self.code, stop) if self.code[stop : stop + 1] == "{" else stop + 1
        if kind == "mod":
            self.inner.append((name, is_pub))
        elif kind == "impl" and not is_test:
            words = without_generics(re.sub(r"\bwhere\b.*", "", self.code[head.start() + 4 : stop], flags=re.S).strip())
            of_trait, _, of = words.rpartition(" for ")
            owner, of_trait = (re.match(r"[&\s]*(?:'\w+\s+)?(?:mut\s+)?(?:\w+::)*(\w+)", it) for it in (of, of_trait))
            self.read(stop + 1, end - 1, owner and owner[1], of_trait and of_trait[1], False)
        elif kind in ("struct", "enum", "trait"):
            found = self.add(kind, head, owner, doc, is_pub)
            if kind == "trait":
                self.read(stop + 1, end - 1, name, None, is_pub)
            elif self.code[stop : stop + 1] == "{":
                self.fields(stop + 1, end - 1, found)
        return end

    def function(self, head, doc, owner, trait, is_pub, is_test):
        """Reads a function with the names of its clauses, and answers the place after its body."""
        found, at = self.add("fn", head, owner, doc, is_pub), head.end()
        found.of_trait = trait
        if is_test:
            self.items.remove(found)
        while at < len(self.code):
            clause = CLAUSE.match(self.code, at) if not self.code[at - 1].isalnum() else None
            if clause:
                (found.ensures if clause[1] == "ensures" else found.requires).append(clause[2] or "result")
                at = closing(self.code, clause.end())
            elif self.code[at] in "{;":
                return closing(self.code, at) if self.code[at] == "{" else at + 1
            else:
                at = closing(self.code, at) if self.code[at] in OPEN else at + 1
        return at

    def fields(self, at, end, of):
        """Reads the fields of a struct or of a variant, or the variants of an enum with their fields."""
        doc = []
        while at < end:
            gap = GAP.match(self.text, at)
            head = FIELD.match(self.code, at)
            if gap:
                doc += [gap[0][3:].strip()] if gap[0].startswith("///") else []
                at = closing(self.code, gap.end()) if gap[0][0] == "#" else gap.end()
            elif head:
                owner = f"{of.owner}::{of.name}" if of.kind == "variant" else of.name
                kind = "variant" if of.kind == "enum" else "field"
                found = self.add(kind, head, owner, " ".join(doc), of.kind != "struct" or (head["vis"] or "").strip() == "pub")
                stop = find(self.code, head.end(), ",{")
                if kind == "variant" and stop < end and self.code[stop] == "{":
                    self.fields(stop + 1, closing(self.code, stop) - 1, found)
                at, doc = find(self.code, head.end(), ",") + 1, []
            else:
                at += 1

    def add(self, kind, head, owner, doc, is_pub):
        """A new item."""
        place = f"{self.place}:{self.text.count(chr(10), 0, head.start()) + 1}"
        found = Item(self.crate, self.modules, owner, kind, head["name"], place)
        found.doc, found.is_pub = doc, is_pub
        self.items.append(found)
        return found


def sources(top, name):
    """The files of a crate by their modules, each with whether other crates can name what is `pub` in it."""
    base = f"{top}/crates/{name}/src"
    todo = [((), f"{base}/{root}", root == "lib.rt") for root in ("lib.rt", "main.rt")]
    found = {}
    for modules, path, is_open in todo:
        if not os.path.isfile(path):
            continue
        source = Source(name, modules, path, os.path.relpath(path, top))
        found[modules] = source, is_open
        for inner, is_pub in source.inner:
            todo.append(((*modules, inner), "/".join([base, *modules, f"{inner}.rt"]), is_open and is_pub))
    return found


def handed_on(used):
    """The paths that a `pub use` hands on."""
    group = re.fullmatch(r"(.*?)(?:::)?\{(.*)\}", used)
    front, names = (group[1], group[2].split(",")) if group else ("", [used])
    for name in filter(None, names):
        yield [*filter(None, front.split("::")), *name.split(" as ")[0].strip().split("::")]


def crate(top, name):
    """The items of a crate."""
    files = sources(top, name)
    named, todo = set(), [modules for modules, (_, is_open) in files.items() if is_open]
    for modules in todo:
        for used in files[modules][0].uses:
            for path in handed_on(used):
                full = path[1:] if path[0] == "crate" else [*modules, *(path[1:] if path[0] == "self" else path)]
                if tuple(full[:-1]) in files and tuple(full[:-1]) != modules:
                    named.add((tuple(full[:-1]), full[-1]))
                    todo += [tuple(full[:-1])] if tuple(full[:-1]) not in todo else []
    items = [it for source, _ in files.values() for it in source.items]
    types = set()
    for it in items:
        if it.owner is None:
            it.is_public = it.is_pub and (files[it.modules][1] or bool({(it.modules, it.name), (it.modules, "*")} & named))
            types |= {it.name} if it.is_public else set()
    for it in items:
        if it.owner is not None:
            it.is_public = it.is_pub and not it.of_trait and it.owner.split("::")[0] in types
    return items


def crates(top):
    """The names of the crates in crates.txt, in its order, each with the heading of its group."""
    found, group = {}, ""
    with open(f"{top}/crates.txt", encoding="utf-8") as file:
        for line in file:
            heading, listed = re.match(r"## (.*)", line), re.match(r"(\w+):", line)
            group = heading[1].strip() if heading else group
            if listed:
                found[listed[1]] = group
    return found
