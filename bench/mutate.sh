#!/usr/bin/env bash
# Changes an image or a source at random, again and again for so many seconds, and gives what comes of it to the program: `check`
# and `run` of an image, `build`, `check` and `run` of a source (docs/guide/command-line.md). It stops at the first answer that is none
# of the program's own: a signal, a status or a last line that the command doesn't have, a byte on standard error, two commands
# that disagree about one file, more than 2 s of a processor, or more than 200 MB. The file that shows it is kept, and its name is
# printed. With --past-slow it keeps files that take too long, and goes on. At the end it prints how many inputs it made, and how
# often each kind of answer came. With the same SEED it makes the same inputs as far as it gets. What is accepted is changed
# further, so that faults after the first test are met too. Needs Python 3, as rt does.
#
#     bench/mutate.sh [--past-slow] FILE SECONDS [SEED [PROGRAM]]
#
# FILE is a source where its name ends in `.s`, else an image. PROGRAM is the one to try, ehabi_run where none is named, which is
# proved and built first.
set -eu
top=$(cd "$(dirname "$0")/.." && pwd)
past_slow=
[ "${1-}" = --past-slow ] && { past_slow=1; shift; }
[ $# -ge 2 ] && [ $# -le 4 ] || { echo "usage: bench/mutate.sh [--past-slow] FILE SECONDS [SEED [PROGRAM]]" >&2; exit 2; }
program=${4-$top/out/ehabi_run}
[ $# -eq 4 ] || "$top/ehabi_run" >/dev/null || true
exec python3 - "$(realpath "$1")" "$2" "${3-1}" "$(realpath "$program")" "$PWD" "$past_slow" <<'PYTHON'
import collections, os, random, re, resource, shutil, signal, sys, tempfile, time

file, seconds, seed, program, folder, past_slow = sys.argv[1:]
deadline = time.monotonic() + float(seconds)
chance = random.Random(int(seed))
is_source = file.endswith(".s")

SECONDS = 2
KILOBYTES = 200_000
EVENTS = "20000"
BYTES = [0, 1, 127, 128, 254, 255]
WORDS = [0, 1, 2, 3, 4, 7, 8, 12, 40, 0x7F, 0x80, 0xFF, 0x100, 0x7FFF, 0x8000, 0x8001, 0xFFFF, 0x10000, 0xFFFFF, 0x100000, 0x100001,
         0x2FFFFFFF, 0x30000000, 0x38000000, 0x3FFF0000, 0x40000000, 0x7FFFFFFF, 0x80000000, 0x80000001, 0xFFFFFFFC, 0xFFFFFFFE, 0xFFFFFFFF]
PIECES = [b"4294967295", b"4294967296", b"-2147483648", b"-2147483649", b"0x", b"0", b"1048576", b"65536", b"1020", b"'\\n'", b'"', b"{", b"}",
          b"r0-r12", b"pc", b"sp", b"lr", b".Lx", b"main", b"a-b+1", b"(prel31)", b"(target2)", b"@", b":", b",", b"#", b"=",
          b"\n.fnstart\n", b"\n.fnend\n", b"\n.handlerdata\n", b"\n.cantunwind\n", b"\n.data\n", b"\n.bss\n", b"\n.text\n", b"\n.pool\n",
          b"\n.space 1048576\n", b"\n.align 3\n", b"\n.pad #65536\n", b"\n.save {r0-r12, lr}\n", b"\n.setfp r7, sp, #1020\n",
          b"\n.personalityindex 2\n", b"\n.word 0xFFFFFFFF\n", b"\n.half 0xF000\n", b"\nsvc #18\n", b"\nsvc #22\n", b"\nblx r3\n"]

# The last line of each status, and the statuses of each command. What is refused is one line.
NAME = rb"[^\n]*"
WHAT = rb"[A-Z][A-Za-z]+"
REFUSED = re.compile(
    rb"(?:" + NAME + rb":\d+:(?:\d+:)? " + WHAT + rb"|link: " + WHAT + rb"(?: " + NAME + rb")?|image: " + WHAT + rb"(?: \d+)?"
    rb"|index: " + WHAT + rb"(?: \d+)?|types: " + WHAT + rb" [0-9A-F]{8}|[!-~]*\+[0-9A-F]+: " + WHAT + rb"(?: (?:r\d+|sp|lr|pc))?)\n\Z"
)
ENDS = {0: rb"\n-- exit 0\n\Z", 1: rb"\n-- exit \d+\n\Z", 4: rb"\n-- terminate " + WHAT + rb"\n\Z",
        5: rb"\n-- trap " + WHAT + rb" [0-9A-F]{8} at [0-9A-F]{8}\n\Z", 6: rb"\n-- budget\n\Z"}
ACCEPTED = re.compile(rb"accepted \d+ functions\n\Z")


def is_own(command, status, said):
    if status == 3:
        return REFUSED.match(said) is not None
    if command == "check":
        return status == 0 and ACCEPTED.match(said) is not None
    if command == "build":
        return status == 0 and said.startswith(b"\x7fELF")
    return status in ENDS and re.search(ENDS[status], said) is not None and b"\n-- trace\n" in said


# A kind of answer: the command, its status, and the word that says why.
def kind(command, status, said):
    line = said.splitlines()[-1] if status in (3, 4, 5) else b""
    found = re.search(rb"(?:.*: |-- terminate |-- trap )([A-Z][A-Za-z]+)", line)
    return f"{command} {status} " + (found[1].decode() if found else "")


class Stop(Exception):
    pass


# Runs a command. Answers its status, what it wrote, and why this is none of the program's own answers, if it isn't.
def call(command, name):
    words = [program, command, name] + ([EVENTS] if command == "run" else [])
    child = os.fork()
    if child == 0:
        try:
            null = os.open(os.devnull, os.O_RDONLY)
            out = os.open("said", os.O_WRONLY | os.O_CREAT | os.O_TRUNC, 0o600)
            err = os.open("err", os.O_WRONLY | os.O_CREAT | os.O_TRUNC, 0o600)
            for to, it in enumerate((null, out, err)):
                os.dup2(it, to)
            resource.setrlimit(resource.RLIMIT_CORE, (0, 0))
            resource.setrlimit(resource.RLIMIT_CPU, (SECONDS + 1, SECONDS + 2))
            os.execv(program, words)
        finally:
            os._exit(127)
    _, wait, used = os.wait4(child, 0)
    with open("said", "rb") as it:
        said = it.read()
    took = used.ru_utime + used.ru_stime
    if took > SECONDS:
        return None, said, f"slow: {took:.1f} s"
    if os.WIFSIGNALED(wait):
        return None, said, f"signal {os.WTERMSIG(wait)}"
    status = os.WEXITSTATUS(wait)
    if os.path.getsize("err"):
        return status, said, "standard error"
    if used.ru_maxrss > KILOBYTES:
        return status, said, f"memory: {used.ru_maxrss // 1000} MB"
    if not is_own(command, status, said):
        return status, said, f"status {status} with {said[-80:]!r}"
    return status, said, None


kept = 0
answers = collections.Counter()


def keep(command, name, why):
    global kept
    kept += 1
    to = os.path.join(folder, f"mutated-{seed}-{kept}" + (".s" if is_source else ""))
    shutil.copyfile(name, to)
    print(f"{command}: {why}: {to}", flush=True)
    if not (past_slow and why.startswith("slow")):
        raise Stop


# Gives a file to the commands, and says whether it is accepted.
def ask(name):
    said = {}
    for command in ["build", "check", "run"] if is_source else ["check", "run"]:
        status, text, why = call(command, name)
        if why is None and 3 in (status, said.get("check", (0, b""))[0]) and "check" in said and (status, text) != said["check"]:
            why = f"{text[-80:]!r} where check says {said['check'][1]!r}"
        if why is None and said.get("build", (0, b""))[0] == 3 and (status, text) != said["build"]:
            why = f"{text[-80:]!r} where build says {said['build'][1]!r}"
        if why is not None:
            answers["slow" if why.startswith("slow") else "stopped"] += 1
            keep(command, name, why)
            return False
        answers[kind(command, status, text)] += 1
        said[command] = (status, text)
    return said["check"][0] == 0


def place(data, size):
    return chance.randrange(max(1, len(data) - size + 1))


def change_bytes(data, size):
    at = place(data, size) // size * size
    old = int.from_bytes(data[at:at + size], "little")
    new = chance.choice([
        lambda: chance.choice(BYTES) if size == 1 else chance.choice(WORDS),
        lambda: old + chance.randint(-16, 16),
        lambda: old ^ 1 << chance.randrange(8 * size),
        lambda: chance.getrandbits(8 * size),
        lambda: int.from_bytes(data[(other := place(data, size)):other + size], "little"),
    ])() % (1 << 8 * size)
    data[at:at + size] = new.to_bytes(size, "little")[:max(0, len(data) - at)]


def change_range(data):
    at, size = place(data, 1), chance.choice([1, 2, 4, 8, 16, 40, 64])
    other = place(data, size)
    how = chance.randrange(5)
    if how == 0:
        data[at:at + size] = data[other:other + size]
    elif how == 1:
        data[at:at] = data[other:other + size]
    elif how == 2:
        del data[at:at + size]
    elif how == 3 and chance.random() < 0.2:
        del data[at:]
    else:
        data[at:at + size] = bytes([chance.choice(BYTES)]) * len(data[at:at + size])


def change_lines(data):
    lines = bytes(data).split(b"\n")
    at, other = chance.randrange(len(lines)), chance.randrange(len(lines))
    how = chance.randrange(6)
    if how == 0:
        lines.insert(at, lines[other])
    elif how == 1:
        del lines[at]
    elif how == 2:
        lines[at], lines[other] = lines[other], lines[at]
    elif how == 3:
        lines[at:at] = lines[other:other + chance.randrange(1, 9)]
    else:
        words = re.split(rb"([^A-Za-z0-9_.$]+)", lines[at])
        others = re.split(rb"([^A-Za-z0-9_.$]+)", lines[other])
        words[chance.randrange(len(words))] = chance.choice(others + [chance.choice(PIECES)])
        lines[at] = b"".join(words)
    data[:] = b"\n".join(lines)


def mutated(data):
    data = bytearray(data)
    for _ in range(chance.choice([1, 1, 1, 2, 2, 3, 4, 8])):
        if is_source and chance.random() < 0.8:
            change_lines(data)
        elif is_source and chance.random() < 0.5:
            at = place(data, 1)
            data[at:at + chance.choice([0, 1, 4])] = chance.choice(PIECES)
        elif chance.random() < 0.2:
            change_range(data)
        else:
            change_bytes(data, chance.choice([1, 1, 2, 4, 4]))
    return bytes(data[:1_000_000])


with open(file, "rb") as it:
    pool = [it.read()]
inputs = 0
stopped = False
with tempfile.TemporaryDirectory() as work:
    os.chdir(work)
    name = "input.s" if is_source else "input"
    try:
        while time.monotonic() < deadline:
            data = mutated(chance.choice(pool)) if inputs else pool[0]
            with open(name, "wb") as it:
                it.write(data)
            inputs += 1
            if ask(name) and len(data) < 100_000 and inputs > 1:
                if len(pool) < 64:
                    pool.append(data)
                else:
                    pool[chance.randrange(1, 64)] = data
    except Stop:
        stopped = True
    os.chdir(folder)
print(f"{inputs} inputs, {sum(answers.values())} commands, {kept} kept" + (", stopped" if stopped else ""))
for said, times in sorted(answers.items()):
    print(f"{times:8} {said}")
sys.exit(1 if stopped else 0)
PYTHON
