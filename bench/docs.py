#!/usr/bin/env python3
"""Reads README.md, CONTRIBUTING.md and docs/**/*.md, and says what is wrong with them.

usage: bench/docs.py [TOP] [--long] [--gone FILE] [--run [PAGE..]] [--unproved] [--comments] [--fields]

TOP is the repository, the one of this script where none is given. Always: a line a page with its words, the average and the longest
sentence with its place; dead links; code names in backticks that are nowhere; and what is over its limit (LIMITS). Further:

--long      lists every sentence above 40 words
--gone F    F has lines OLD NEW, as crates are renamed: an OLD in backticks is wrong, unless something else has that name now
--run       runs the fenced blocks of the pages, or of those named, as is said below
--unproved  does so with ehabi_try, standard error dropped, in place of ehabi_run; of ehabi_audit nothing is run then
--comments  lists pages and sections of docs/ that the sources cite and that aren't there
--fields    lists public items, variants and fields of the sources that have no `///`

The status is 1 where anything is wrong.

Sentences: tables, fenced blocks, headings and the marks of lists are left out. A sentence ends at `.`, `?` or `!` before a blank, at a `:` at
a line's end, and with its paragraph or list item. A span in backticks counts as one word.

Blocks: each page has a scratch folder, with links to LINKED. A block `asm`, `c`, `cpp` or `text` with a name is written there as a file. In
a `console` block a line that begins with `$ ` is a command; the lines after it are its standard output, where a line `...` stands for any
number of lines. A status other than 0 is wrong unless the next command is an `echo` of `$?`; so is a command that isn't done after SECONDS. A
block whose tool isn't installed is skipped and named, and so is a later one that needs a file that a skipped block was to make."""
import argparse
import collections
import fnmatch
import glob
import os
import re
import shutil
import signal
import subprocess
import sys
import tempfile

sys.dont_write_bytecode = True
import items

# the most words of a page or folder
LIMITS = {"README.md": 1200, "docs/": 58000, "docs/PROMISES.md": 8000}
LONG, AVERAGE = 40, 20
LINKED = ["ehabi_run", "ehabi_audit", "ehabi_try", "examples", "crates", "bench", "docs", "tools"]
SOURCES = [".rt", ".antt", ".edit", ".s", ".c", ".cpp", ".py", ".sh", ".txt", ".pl", ""]
SECONDS = 900
MARK = "\x1e"
# the first parts of paths that are no names of this project, and words of C++ in backticks
FOREIGN = {"std", "core", "alloc", "Rattle", "self", "crate", "super", "__gnu_cxx", "__cxxabiv1", "abi"}
OUTSIDE = {"dynamic_cast", "static_cast", "reinterpret_cast", "const_cast"}
ELF_FIELD = re.compile(r"(?:e|p|sh|st|r)_[a-z0-9]+")


class Block:
    """A fenced block: its language, the name after it, its lines, and the number of its first line."""

    def __init__(self, info, lines, at):
        words = info.split()
        self.language, self.name = (words + [""])[0], words[1] if len(words) > 1 else None
        self.lines, self.at = lines, at


class Page:
    """A page: its text, its fenced blocks, its lines without them, and its headings as links name them."""

    def __init__(self, top, path):
        self.top, self.path = top, path
        with open(f"{top}/{path}", encoding="utf-8") as file:
            self.text = file.read()
        self.lines, self.blocks = [], []
        fence = None
        for number, line in enumerate(self.text.split("\n"), 1):
            mark = re.match(r"(\s*)(`{3,}|~{3,})\s*(.*)$", line)
            if fence and mark and mark[2].startswith(fence[1]) and not mark[3]:
                self.blocks.append(Block(fence[2], inside, fence[3]))
                fence = None
            elif fence:
                inside.append(line[len(fence[0]) :] if line.startswith(fence[0]) else line.lstrip())
            elif mark:
                fence, inside = (mark[1], mark[2], mark[3], number), []
            else:
                self.lines.append((number, line))
        self.headings = [it[1].strip() for it in (re.match(r"#+\s+(.*)", line) for _, line in self.lines) if it]

    def slugs(self):
        """The names of the sections in links."""
        found = collections.Counter()
        for heading in self.headings:
            plain = re.sub(r"\[([^\]]*)\]\([^)]*\)", r"\1", heading).replace("`", "")
            slug = re.sub(r"[^\w\- ]", "", plain.lower()).replace(" ", "-")
            yield f"{slug}-{found[slug]}" if found[slug] else slug
            found[slug] += 1

    def paragraphs(self):
        """Pieces of running text, each as its lines with their numbers; a list item is one."""
        piece = []
        for number, line in [*self.lines, (0, "")]:
            text = re.sub(r"^\s*(?:>\s*)*", "", line)
            item = re.match(r"(?:[-*+]|\d+[.)])\s+", text)
            is_apart = not text.strip() or text[0] in "|#" or re.match(r"\[[^\]]+\]:|<!--|-{3,}$", text)
            if (is_apart or item) and piece:
                yield piece
                piece = []
            if not is_apart:
                piece.append((number, text[item.end() :] if item else text))

    def sentences(self):
        """Each sentence with the number of the line where it begins."""
        for piece in self.paragraphs():
            # a span in backticks is one word, also over a line's end
            text = "\n".join(line for _, line in piece)
            text = re.sub(r"`+[^`]*`+", lambda it: "\n" * it[0].count("\n") + "code", text)
            text = re.sub(r"\[([^\]]*)\]\([^)\s]*\)", r"\1", text)
            text = re.sub(r"\b(e\.g|i\.e|cf|vs|etc)\.", r"\1", text)
            at = 0
            for end in [*(it.end() for it in re.finditer(r"[.?!][)\"'*_]*(?=\s)|:(?=\s*\n|\s*$)", text)), len(text)]:
                words = text[at:end].split()
                if words:
                    begin = at + len(text[at:end]) - len(text[at:end].lstrip())
                    yield piece[min(text.count("\n", 0, begin), len(piece) - 1)][0], words
                at = end

    def spans(self):
        """What stands in backticks, with the number of its line."""
        text = "\n".join(line for _, line in self.lines)
        for it in re.finditer(r"(?<!`)(`+)(?!`)(.+?)(?<!`)\1(?!`)", text, re.S):
            if "\n\n" not in it[2]:
                yield self.lines[text.count("\n", 0, it.start())][0], " ".join(it[2].split())

    def links(self):
        """The targets of links, with the number of the line."""
        for number, line in self.lines:
            plain = re.sub(r"`[^`]*`", "", line)
            for it in re.finditer(r"\]\(([^)\s]+)(?:\s+\"[^\"]*\")?\)|^\[[^\]]+\]:\s+(\S+)", plain):
                yield number, it[1] or it[2]


def pages_of(top):
    """README.md, CONTRIBUTING.md and all pages of docs/."""
    found = [it for it in ("README.md", "CONTRIBUTING.md") if os.path.isfile(f"{top}/{it}")]
    below = glob.glob("docs/**/*.md", root_dir=top, recursive=True)
    return [Page(top, it) for it in [*found, *sorted(below)]]


def counts(pages, is_long):
    """A line a page with its words and sentences; what is too long."""
    wrong, words_of = [], {}
    for page in pages:
        words_of[page.path] = len(page.text.split())
        said = [(len(words), number, words) for number, words in page.sentences()]
        average = sum(it[0] for it in said) / max(len(said), 1)
        longest = max(said, default=(0, 0, []))
        print(f"{page.path}: {words_of[page.path]} words, {average:.1f} a sentence, longest {longest[0]} (line {longest[1]})")
        above = [it for it in said if it[0] > LONG]
        wrong += [f"{page.path}: {average:.1f} words a sentence, above {AVERAGE}"] if average > AVERAGE else []
        if is_long:
            wrong += [f"{page.path}:{number}: {count} words: {' '.join(words)}" for count, number, words in above]
        elif above:
            wrong.append(f"{page.path}: {len(above)} sentences above {LONG} words")
    for name, limit in LIMITS.items():
        total = sum(count for path, count in words_of.items() if path == name or name.endswith("/") and path.startswith(name))
        wrong += [f"{name}: {total} words, above {limit}"] if total > limit else []
        print(f"{name}: {total} of {limit} words")
    return wrong


def dead_links(pages):
    """Links to files and sections that aren't there."""
    wrong, slugs = [], {page.path: set(page.slugs()) for page in pages}
    for page in pages:
        for number, target in page.links():
            if re.match(r"[a-z]+:", target):
                continue
            path, _, section = target.partition("#")
            full = os.path.normpath(os.path.join(os.path.dirname(page.path), path)) if path else page.path
            if not os.path.exists(f"{page.top}/{full}"):
                wrong.append(f"{page.path}:{number}: no file: {target}")
            elif section and full.endswith(".md"):
                slugs.setdefault(full, set(Page(page.top, full).slugs()))
                wrong += [] if section in slugs[full] else [f"{page.path}:{number}: no section: {target}"]
    return wrong


class Names:
    """All that a name in backticks may be: items by crate, types with their members, files, and words of the sources."""

    def __init__(self, top):
        self.top, self.crates = top, items.crates(top)
        self.of_crate = {name: set() for name in self.crates}
        self.of_type = {}
        for name in self.crates:
            for it in items.crate(top, name):
                self.of_crate[name] |= {it.name, it.owner, *it.modules, *it.ensures, *it.requires}
                # fields of a variant are its type's too
                self.of_type.setdefault((it.owner or "").split("::")[0], set()).add(it.name)
                if it.kind in ("struct", "enum", "trait", "type"):
                    self.of_type.setdefault(it.name, set())
        self.files, self.words = set(), {*OUTSIDE}
        for path in tracked(top):
            self.words.add(os.path.splitext(os.path.basename(path))[0])
            parts = re.sub(r"^crates/", "", path).split("/")
            # a path may begin at the crates' folder, or in a crate
            self.files |= {"/".join(parts[first:last]) for first in (0, 1) for last in range(first + 1, len(parts) + 1)}
            if path.endswith(".md") or os.path.splitext(path)[1] not in SOURCES:
                continue
            text = read(f"{top}/{path}")
            self.words |= set(re.findall(r"[^\W\d]\w*", text))
            spec = re.match(r"crates/(\w+)/(?:specs|proofs)/(.*)\.antt$", path)
            if spec and spec[1] in self.of_crate:
                defined = re.findall(r"^\s*(?:(?:pub|abbrev|unfoldable|record|data|lemma)\s+)*([^\s:({]+)(?=[\s:({])", text, re.M)
                self.of_crate[spec[1]] |= {*defined, *spec[2].split("/")}

    def is_path(self, path):
        """Whether a path as `crate::item` or `Type::method` names something."""
        front, *rest = path.split("::")
        if front in FOREIGN:
            return True
        if front in self.crates:
            known = self.of_crate[front]
            return all(it in known or it in ("*", "specs", "proofs") for it in rest)
        if front in self.of_type:
            return all(it == "*" or it in self.of_type[front] for it in rest)
        # a module of a crate that the page has named
        return front[0].islower() and any({front, *rest} - {"*"} <= known for known in self.of_crate.values())

    def is_file(self, path, page):
        """Whether a path, perhaps with `*`, is that of a file or folder: from the top, from a crate, from the page, or written by a block."""
        path = path.rstrip("/")
        if path in self.files or path in {it.name for it in page.blocks}:
            return True
        folders = [self.top, os.path.dirname(f"{self.top}/{page.path}")]
        return any(glob.glob(f"{folder}/{path}") for folder in folders) or "*" in path and bool(fnmatch.filter(self.files, path))


def tracked(top):
    """The files of the repository, or of its folder where that is none."""
    listed = subprocess.run(["git", "-C", top, "ls-files", "-co", "--exclude-standard"], capture_output=True, text=True, check=False)
    if listed.returncode == 0:
        return [it for it in listed.stdout.split("\n") if it and os.path.isfile(f"{top}/{it}")]
    return [os.path.relpath(f"{at}/{it}", top) for at, _, names in os.walk(top) for it in names]


def read(path):
    """The text of a file."""
    with open(path, encoding="utf-8", errors="replace") as file:
        return file.read()


def lost_names(pages, names, gone):
    """Code names in backticks that are nowhere."""
    wrong = []
    for page in pages:
        # names that the page's own blocks have, as labels of an example
        own = set(re.findall(r"[^\W\d]\w*", " ".join(line for block in page.blocks for line in block.lines)))
        for number, span in page.spans():
            lost = [it for it in re.findall(r"(?<![\w:.'-])[A-Za-z_]\w*(?:::(?:\w+|\*))+", span) if not names.is_path(it)]
            if re.fullmatch(r"[\w.*+/-]+", span) and ("/" in span.strip("/") or span.startswith("docs/")):
                is_ours = re.search(r"^(crates|docs|bench|examples|specs|src|proofs|tools)\b|\.(rt|antt|md|py|sh|edit)$", span)
                # words in capitals, and X or x alone, stand for others
                is_form = re.search(r"\b[A-Z]{2,}\b|\b[Xx]\b|\.\.\.|/X[A-Z]", span)
                lost += [span] if is_ours and not is_form and not names.is_file(span, page) else []
            elif re.fullmatch(r"[^\W\d_]\w*(?:_\w+)+|[A-Z][a-z]\w{2,}", span) and not span.startswith("x_"):
                lost += [] if span in names.words or span in own or ELF_FIELD.fullmatch(span) else [span]
            if span in gone and not any(span in known for known in [names.crates, *names.of_crate.values()]):
                lost.append(f"{span}, which is {gone[span]} now")
            wrong += [f"{page.path}:{number}: nowhere: {it}" for it in lost]
    return wrong


def cited(top):
    """The pages of docs/ that sources cite, with sections, each with the file that cites it."""
    for path in tracked(top):
        if not re.match(r"crates/|crates\.txt$|bench/|tools/|ehabi_|\.ci/", path) or path.startswith("bench/log/") or path.endswith(".md"):
            continue
        if os.path.islink(f"{top}/{path}"):
            continue
        # a citation goes on over the end of a comment's line
        text = re.sub(r"\s*\n\s*(?://[/!]?|--|#)\s*", " ", read(f"{top}/{path}"))
        for it in re.finditer(r"\bdocs/([\w/-]+\.md)((?:,\s+\"[^\"\n]+\"(?:\s+and\s+\"[^\"\n]+\")*)*)", text):
            yield path, it[1], re.findall(r"\"([^\"]+)\"", it[2])


def dead_citations(top, pages):
    """Citations of pages and sections that aren't there."""
    headings = {page.path[5:]: {it.replace("`", "") for it in page.headings} for page in pages if page.path.startswith("docs/")}
    wrong = collections.defaultdict(list)
    for path, page, sections in cited(top):
        if page not in headings:
            wrong[f"no page docs/{page}"].append(path)
        for section in sections if page in headings else []:
            if section.replace("`", "") not in headings[page]:
                wrong[f'no section "{section}" in docs/{page}'].append(path)
    return [f"{said}: {len(paths)} citations: {' '.join(sorted(set(paths)))}" for said, paths in sorted(wrong.items())]


def undocumented(top):
    """Public items, variants and fields without `///`."""
    found = [it for name in items.crates(top) for it in items.crate(top, name) if it.is_public]
    kinds = {it: it.kind if it.kind in ("field", "variant") else "item" for it in found}
    for kind in ("field", "variant", "item"):
        of_kind = [it for it in found if kinds[it] == kind]
        print(f"public {kind}s without `///`: {sum(not it.doc for it in of_kind)} of {len(of_kind)}")
    return [f"{it.place}: no `///`: {it.kind} {it.path()}" for it in found if not it.doc]


class Runner:
    """Runs the blocks of a page in a scratch folder."""

    def __init__(self, top, page, is_unproved):
        self.page, self.is_unproved = page, is_unproved
        self.wrong, self.skipped, self.lost, self.ran = [], [], set(), 0
        self.folder = tempfile.mkdtemp(prefix="docs.")
        for name in LINKED:
            if is_unproved and name == "ehabi_run":
                with open(f"{self.folder}/{name}", "w", encoding="utf-8") as file:
                    file.write(f'#!/bin/sh\nexec "{top}/ehabi_try" "$@" 2>/dev/null\n')
                os.chmod(f"{self.folder}/{name}", 0o755)
            elif os.path.exists(f"{top}/{name}"):
                os.symlink(f"{top}/{name}", f"{self.folder}/{name}")

    def run(self):
        """Runs all blocks, and removes the folder."""
        try:
            for block in self.page.blocks:
                if block.language == "console":
                    self.console(block)
                elif block.name:
                    self.write(block)
        finally:
            shutil.rmtree(self.folder)
        return self.wrong

    def write(self, block):
        """Writes a block as a file."""
        path = os.path.normpath(block.name)
        if path.startswith(("/", "..")) or path.split("/")[0] in LINKED:
            self.wrong.append(f"{self.page.path}:{block.at}: {block.name} is outside the scratch folder")
            return
        os.makedirs(os.path.dirname(f"{self.folder}/{path}") or ".", exist_ok=True)
        with open(f"{self.folder}/{path}", "w", encoding="utf-8") as file:
            file.write("".join(f"{it}\n" for it in block.lines))

    def console(self, block):
        """Runs the commands of a block, and compares what they write."""
        commands = []
        for at, line in enumerate(block.lines, block.at + 1):
            if commands and commands[-1][1].endswith("\\") and not commands[-1][2]:
                commands[-1][1] += "\n" + line.removeprefix("> ")
            elif line.startswith("$ "):
                commands.append([at, line[2:], []])
            elif commands:
                commands[-1][2].append(line)
            elif line.strip():
                self.wrong.append(f"{self.page.path}:{at}: output before the first command")
        why = self.reason("\n".join(it[1] for it in commands))
        if why:
            self.skipped.append(f"{self.page.path}:{block.at}: skipped: {why}")
            files = re.findall(r"[\w./-]*\w\.\w+|(?<=-o )[\w./-]+", " ".join(it[1] for it in commands))
            self.lost |= {it for it in files if not os.path.exists(f"{self.folder}/{it}")}
            return
        for (at, command, said), (written, status), after in zip(commands, self.outputs(commands), [*commands[1:], [0, "", []]]):
            self.ran += 1
            if not matches(said, written):
                self.wrong.append(f"{self.page.path}:{at}: $ {command}\n  the page: {said}\n  it wrote: {written}")
            if status != "0" and not re.match(r"echo\b.*\$\?", after[1]):
                self.wrong.append(f"{self.page.path}:{at}: $ {command}: status {status}, which the page doesn't show")

    def reason(self, text):
        """Why a block isn't run: a tool that isn't there, or a file that a skipped block was to make."""
        bare = re.sub(r"'[^']*'|\"[^\"]*\"", "''", text.replace("\\\n", " "))
        for part in re.split(r"\|\|?|&&|;|\n|\$\(|(?<![<>])&(?!\d)|\b(?:do|then|else|while|if|until)\b|!", bare):
            words = [it for it in part.split() if not re.match(r"\w+=", it)]
            tool = words[0].strip("()'") if words and re.match(r"\(?[\w./+-]+$", words[0]) else ""
            # a program of the repository that is named without its folder is run, and fails
            is_bare = tool and "/" not in tool and tool not in LINKED
            if is_bare and subprocess.run(["bash", "-c", f"type -t -- {tool}"], capture_output=True, check=False).returncode:
                return f"{tool} is not installed"
            if tool and self.is_unproved and os.path.basename(tool) == "ehabi_audit":
                return "ehabi_audit has no unproved build"
        needed = sorted(it for it in self.lost if it in text and not os.path.exists(f"{self.folder}/{it}"))
        return f"needs {needed[0]} of a skipped block" if needed else None

    def outputs(self, commands):
        """What each command wrote, as lines, with its status."""
        # after each command its status stands between two marks, and is the status that the next command sees
        ended = f'docs_status=$?; printf "{MARK}%s{MARK}" $docs_status; (exit $docs_status)'
        script = "".join(f"{command}\n{ended}\n" for _, command, _ in commands)
        streams = {"stdin": subprocess.DEVNULL, "stdout": subprocess.PIPE, "stderr": subprocess.DEVNULL}
        with subprocess.Popen(["bash", "-c", script], cwd=self.folder, start_new_session=True, **streams) as job:
            try:
                written = job.communicate(timeout=SECONDS)[0]
            except subprocess.TimeoutExpired:
                os.killpg(job.pid, signal.SIGKILL)
                written = job.communicate()[0]
        parts = [*written.decode(errors="replace").split(MARK), *[""] * 2 * len(commands)]
        return [(lines_of(parts[2 * at]), parts[2 * at + 1] or "none") for at in range(len(commands))]


def lines_of(text):
    """The lines of what was written."""
    return text.removesuffix("\n").split("\n") if text else []


def matches(said, written):
    """Whether lines are as a page says, where `...` stands for any number of lines."""
    while said and not said[-1].strip() and not (written and not written[-1].strip()):
        said = said[:-1]
    if not said:
        return not written
    if said[0].strip() == "...":
        return any(matches(said[1:], written[at:]) for at in range(len(written) + 1))
    return bool(written) and said[0].rstrip() == written[0].rstrip() and matches(said[1:], written[1:])


def run_blocks(top, pages, is_unproved):
    """Runs the blocks of pages; what isn't as they say."""
    wrong = []
    for page in pages:
        runner = Runner(top, page, is_unproved)
        wrong += runner.run()
        if runner.ran or runner.skipped:
            print(f"{page.path}: {runner.ran} commands run, {len(runner.skipped)} blocks skipped")
        for it in runner.skipped:
            print(it)
    return wrong


def main():
    words = argparse.ArgumentParser(usage=__doc__.split("usage: ")[1].split("\n")[0])
    words.add_argument("top", nargs="?", default=os.path.dirname(os.path.dirname(os.path.abspath(__file__))))
    words.add_argument("--gone")
    words.add_argument("--run", nargs="*")
    for it in ("long", "unproved", "comments", "fields"):
        words.add_argument(f"--{it}", action="store_true")
    asked = words.parse_args()
    top = os.path.abspath(asked.top)
    pages = pages_of(top)
    gone = dict(line.split()[:2] for line in read(asked.gone).split("\n") if re.match(r"\w+ \w+\s*$", line)) if asked.gone else {}
    wrong = counts(pages, asked.long)
    wrong += dead_links(pages)
    wrong += lost_names(pages, Names(top), gone)
    if asked.comments:
        wrong += dead_citations(top, pages)
    if asked.fields:
        wrong += undocumented(top)
    if asked.run is not None:
        named = [os.path.normpath(it) for it in asked.run]
        wrong += run_blocks(top, [it for it in pages if not named or it.path in named], asked.unproved)
    for it in wrong:
        print(it)
    print(f"{len(wrong)} wrong")
    sys.exit(1 if wrong else 0)


if __name__ == "__main__":
    main()
