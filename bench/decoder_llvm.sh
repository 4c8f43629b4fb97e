#!/usr/bin/env bash
# Compares the decoder, in both profiles, with llvm-mc's disassembler for Armv6-M and for Armv8-M Baseline (docs/rules/instructions.md): each of the
# 65,536 first halfwords, with several second ones where it begins two, and for each row of two halfwords so many pairs that differ from it in
# at most three bits of its pattern. What is an instruction here has to be the same one there, with the same fields; what is undefined here has
# to be none there, UDF and the instructions of DDI 0553 and DDI 0419 apart that these profiles leave out. Unpredictable pairs, and those of
# instructions for systems, are counted and not compared. Prints what differs, and how many pairs were compared. Needs llvm-mc (14 or later),
# python3, and rt; the decoder is built by `rt try`, without proofs.
#
#     bench/decoder_llvm.sh [PAIRS [SEED]]     PAIRS for each row of two halfwords, 100,000 where none is given
set -eu
top=$(cd "$(dirname "$0")/.." && pwd)
command -v llvm-mc >/dev/null || { echo "llvm-mc is not installed"; exit 2; }
work=$(mktemp -d)
trap 'rm -rf "$work"' EXIT
mkdir -p "$work/crates/both_profiles/src"
cp -r "$top/crates/thumb_isa" "$top/crates/test_rows" "$work/crates/"
rm -rf "$work"/crates/*/out
cp "$top/HANDLES" "$work/"
printf 'thumb_isa:\ntest_rows:\nboth_profiles: test_rows thumb_isa\n' >"$work/crates.txt"
cat >"$work/crates/both_profiles/src/main.rt" <<'RATTLE'
//! What pairs of halfwords mean in both profiles.
#![tactic(auto)]

use test_rows::{Asked, Unanswered, first_word, run_file};
use std::alloc::Global;
use std::io::Error;
use thumb_isa::decode::decode_for;
use thumb_isa::profile::Profile;

struct Both;

fn halfword(word: &str) -> Option<u16> {
    u16::from_str_radix(word, 16).ok()
}

impl Asked for Both {
    fn answer(&self, alloc: Global, question: &str) -> Result<String, Unanswered> {
        let (first, second) = first_word(question);
        match (halfword(first), halfword(second)) {
            (Some(first), Some(second)) => {
                let one = decode_for(Profile::One, first, second);
                let two = decode_for(Profile::Two, first, second);
                Ok(format!(in alloc; "{one:?} | {two:?}")?)
            }
            _ => Err(Unanswered::Because("no halfwords")),
        }
    }
}

fn main(host: HostRuntime) -> Result<(), Error> {
    run_file(&host, "pairs.txt", &Both)
}
RATTLE
cat >"$work/compare.py" <<'PYTHON'
import collections, random, re, subprocess, sys

work, pairs, seed = sys.argv[1], int(sys.argv[2]), int(sys.argv[3])
chance = random.Random(seed)
# rows of two halfwords: (name, mask, value, mask of the second, value of the second)
WIDE = [("BL", 0xF800, 0xF000, 0xD000, 0xD000), ("DSB", 0xFFFF, 0xF3BF, 0xFFF0, 0x8F40), ("DMB", 0xFFFF, 0xF3BF, 0xFFF0, 0x8F50),
        ("ISB", 0xFFFF, 0xF3BF, 0xFFF0, 0x8F60), ("MSR", 0xFFF0, 0xF380, 0xFF00, 0x8800), ("MRS", 0xFFFF, 0xF3EF, 0xF000, 0x8000),
        ("B.W", 0xF800, 0xF000, 0xD000, 0x9000), ("MOVW", 0xFBF0, 0xF240, 0x8000, 0x0000), ("MOVT", 0xFBF0, 0xF2C0, 0x8000, 0x0000),
        ("SDIV", 0xFFF0, 0xFB90, 0xF0F0, 0xF0F0), ("UDIV", 0xFFF0, 0xFBB0, 0xF0F0, 0xF0F0)]
asked = []
for first in range(0x10000):
    if first < 0xE800:
        asked.append((first, 0))
    else:
        asked += [(first, second) for second in (0x0000, 0x8000, 0xD000, 0xF0F0, 0x8F5F, chance.randrange(0x10000))]
for name, mask, value, mask_2, value_2 in WIDE:
    fixed = [k for k in range(32) if (mask << 16 | mask_2) >> k & 1]
    for _ in range(pairs):
        word = chance.randrange(1 << 32) & ~(mask << 16 | mask_2) | value << 16 | value_2
        for k in chance.sample(fixed, chance.randrange(4)):
            word ^= 1 << k
        if word >> 16 >= 0xE800:
            asked.append((word >> 16, word & 0xFFFF))
asked = list(dict.fromkeys(asked))
PIECE = 100000

def ours(piece):
    with open(f"{work}/crates/both_profiles/data/pairs.txt", "w") as it:
        it.writelines(f"{a:04X} {b:04X} : ?\n" for a, b in piece)
    out = subprocess.run([f"{work}/program"], cwd=f"{work}/crates/both_profiles/data", stdout=subprocess.PIPE, stderr=subprocess.DEVNULL, text=True).stdout
    found = {}
    for line in out.splitlines():
        m = re.match(r"([0-9A-F]{4}) ([0-9A-F]{4}) : \?, but it is: (.*) \| (.*)$", line)
        if m:
            found[int(m[1], 16), int(m[2], 16)] = (m[3], m[4])
    return found

def theirs(piece, triple):
    text = "".join("[%s]\n" % " ".join(f"0x{x:02x}" for x in ((a & 255, a >> 8) if a < 0xE800 else (a & 255, a >> 8, b & 255, b >> 8))) for a, b in piece)
    ran = subprocess.run(["llvm-mc", "-disassemble", f"-triple={triple}"], input=text, stdout=subprocess.PIPE, stderr=subprocess.PIPE, text=True)
    bad, unsure = set(), set()
    for m in re.finditer(r"<stdin>:(\d+):\d+: warning: (\w+)", ran.stderr):
        (bad if m[2] == "invalid" else unsure).add(int(m[1]) - 1)
    lines = [" ".join(line.split()) for line in ran.stdout.splitlines() if line.strip() and not line.strip().startswith(".text")]
    assert len(lines) == len(piece) - len(bad), (len(lines), len(piece), len(bad))
    rest = iter(lines)
    return [None if k in bad else next(rest) for k in range(len(piece))], unsure

R = ["r%d" % k for k in range(13)] + ["sp", "lr", "pc"]
CONDITIONS = "eq ne hs lo mi pl vs vc hi ls ge lt gt le".split()
ALU = "ands eors lsls lsrs asrs adcs sbcs rors tst rsbs cmp cmn orrs muls bics mvns".split()
MEM_REG = "str strh strb ldrsb ldr ldrh ldrb ldrsh".split()
MEM_IMM = "str ldr strb ldrb strh ldrh".split()
HINTS = {0: "nop", 1: "yield", 2: "wfe", 3: "wfi", 4: "sev"}
OPTIONS = {15: "sy", 14: "st", 11: "ish", 10: "ishst", 7: "nsh", 6: "nshst", 3: "osh", 2: "oshst"}

def listed(mask):
    return "{%s}" % ", ".join(R[k] for k in range(16) if mask >> k & 1)

def at(base, off):
    return f"[{base}]" if off == 0 else f"[{base}, #{off}]"

# the text of llvm for an instruction, from the fields that the decoder gives
def text(name, f):
    n = {k: int(v) if v.lstrip("-").isdigit() else v == "true" for k, v in f.items()}
    if name == "ShiftImm":
        if n["op"] == 0 and n["n"] == 0: return f"movs {R[n['d']]}, {R[n['m']]}"
        return f"{['lsls', 'lsrs', 'asrs'][n['op']]} {R[n['d']]}, {R[n['m']]}, #{n['n']}"
    if name == "AddSubReg": return f"{'subs' if n['sub'] else 'adds'} {R[n['d']]}, {R[n['n']]}, {R[n['m']]}"
    if name == "AddSubImm3": return f"{'subs' if n['sub'] else 'adds'} {R[n['d']]}, {R[n['n']]}, #{n['imm']}"
    if name == "Imm8": return f"{['movs', 'cmp', 'adds', 'subs'][n['op']]} {R[n['d']]}, #{n['imm']}"
    if name == "Alu":
        if n["op"] == 9: return f"rsbs {R[n['d']]}, {R[n['m']]}, #0"
        if n["op"] == 13: return f"muls {R[n['d']]}, {R[n['m']]}, {R[n['d']]}"
        return f"{ALU[n['op']]} {R[n['d']]}, {R[n['m']]}"
    if name == "AddHigh":
        return (f"add {R[n['d']]}, {R[n['m']]}", f"add {R[n['d']]}, sp, {R[n['d']]}", f"add sp, {R[n['m']]}")
    if name == "CmpHigh": return f"cmp {R[n['n']]}, {R[n['m']]}"
    if name == "MovHigh": return f"mov {R[n['d']]}, {R[n['m']]}"
    if name == "Bx": return f"bx {R[n['m']]}"
    if name == "Blx": return f"blx {R[n['m']]}"
    if name == "LdrLit": return f"ldr {R[n['t']]}, [pc, #{n['off']}]"
    if name == "MemReg": return f"{MEM_REG[n['op']]} {R[n['t']]}, [{R[n['n']]}, {R[n['m']]}]"
    if name == "MemImm": return f"{MEM_IMM[n['op']]} {R[n['t']]}, {at(R[n['n']], n['off'])}"
    if name == "MemSp": return f"{'ldr' if n['load'] else 'str'} {R[n['t']]}, {at('sp', n['off'])}"
    if name == "Adr": return f"adr {R[n['d']]}, #{n['off']}"
    if name == "AddRdSp": return f"add {R[n['d']]}, sp, #{n['off']}"
    if name == "AddSp": return f"add sp, #{n['off']}"
    if name == "SubSp": return f"sub sp, #{n['off']}"
    if name == "Extend": return f"{['sxth', 'sxtb', 'uxth', 'uxtb'][n['op']]} {R[n['d']]}, {R[n['m']]}"
    if name == "Rev": return f"{['rev', 'rev16', '', 'revsh'][n['op']]} {R[n['d']]}, {R[n['m']]}"
    if name == "Push": return f"push {listed(n['list'])}"
    if name == "Pop": return f"pop {listed(n['list'])}"
    if name == "Hint": return HINTS.get(n["n"], f"hint #{n['n']}")
    if name == "Stm": return f"stm {R[n['n']]}!, {listed(n['list'])}"
    if name == "Ldm": return f"ldm {R[n['n']]}{'' if n['list'] >> n['n'] & 1 else '!'}, {listed(n['list'])}"
    if name == "BCond": return f"b{CONDITIONS[n['cond']]} #{n['off']}"
    if name == "Svc": return f"svc #{n['imm']}"
    if name == "B": return f"b #{n['off']}"
    if name == "Bl": return f"bl #{n['off']}"
    if name == "Barrier":
        if n["op"] == 2: return ("isb sy" if n["option"] == 15 else f"isb #{n['option']:#x}")
        return (f"{['dsb', 'dmb'][n['op']]} {OPTIONS.get(n['option'], hex(n['option']))}", f"{['dsb', 'dmb'][n['op']]} #{n['option']:#x}",
                "ssbb" if (n["op"], n["option"]) == (0, 0) else "pssbb" if (n["op"], n["option"]) == (0, 4) else "")
    if name == "Cbz": return f"{'cbnz' if n['nonzero'] else 'cbz'} {R[n['n']]}, #{n['off']}"
    if name == "BWide": return f"b.w #{n['off']}"
    if name == "MovW": return f"movw {R[n['d']]}, #{n['imm']}"
    if name == "MovT": return f"movt {R[n['d']]}, #{n['imm']}"
    if name == "Div": return f"{'sdiv' if n['signed'] else 'udiv'} {R[n['d']]}, {R[n['n']]}, {R[n['m']]}"
    raise ValueError(name)

# what the profiles leave out of both manuals: UDF (llvm has names of its own for two of them), and of Armv8-M Baseline exclusives, acquire and release, security, and the hints of two halfwords
LEFT_OUT = re.compile(r"(udf(\.w)?|trap|__brkdiv0|ldrex\w*|strex\w*|clrex|lda\w*|stl\w*|tta?t?|sg|bxns|blxns|mrs|msr|cps\w*|bkpt|hlt|dfb|(nop|yield|wfe|wfi|sev|hint|csdb|esb|dbg)(\.w)?)\b")
count, wrong = collections.Counter(), 0
for begin in range(0, len(asked), PIECE):
    piece = asked[begin : begin + PIECE]
    mine = ours(piece)
    for number, triple in ((0, "thumbv6m-none-eabi"), (1, "thumbv8m.base-none-eabi")):
        lines, unsure = theirs(piece, triple)
        for k, pair in enumerate(piece):
            said, line = mine[pair][number], lines[k]
            m = re.match(r"Is\((\w+)(?: \{ (.*) \})?, (\d)\)$", said)
            if m:
                fields = dict(it.split(": ") for it in m[2].split(", ")) if m[2] else {}
                want = text(m[1], fields)
                fits = line is not None and (line == want or type(want) is tuple and line in want)
                count[triple, "instructions"] += 1
            elif said == "Undefined":
                fits = line is None or LEFT_OUT.match(line) is not None
                want = "none"
                count[triple, "undefined"] += 1
            else:
                count[triple, "not compared: " + said] += 1
                continue
            if not fits:
                wrong += 1
                if wrong <= 60:
                    print(f"{triple} {pair[0]:04X} {pair[1]:04X}: {said}; llvm-mc: {line}, wanted: {want}")
for key in sorted(count):
    print(f"{key[0]}: {key[1]} {count[key]}")
print(f"{wrong} differ")
sys.exit(wrong > 0)
PYTHON
mkdir -p "$work/crates/both_profiles/data" "$work/tmp"
# rt try keeps no build, so it is given enough to do, and the program is copied meanwhile
python3 -c "print('\n'.join('%04X 0000 : ?' % (k % 0xE800) for k in range(2000000)))" >"$work/many.txt"
(cd "$work/crates/both_profiles" && TMPDIR=$work/tmp exec rt try --data "pairs.txt=$work/many.txt" </dev/null >"$work/log" 2>&1) &
job=$!
until program=$(find "$work/tmp" -name program -type f -perm -u+x -print -quit 2>/dev/null) && [ -n "$program" ] && cp "$program" "$work/program" 2>/dev/null && [ -x "$work/program" ]; do
    kill -0 "$job" 2>/dev/null || { tail -n 20 "$work/log"; exit 1; }
    sleep 0.3
done
sleep 1
cp "$program" "$work/program" 2>/dev/null || true
kill "$job" 2>/dev/null || true
wait "$job" 2>/dev/null || true
python3 "$work/compare.py" "$work" "${1-100000}" "${2-1}"
