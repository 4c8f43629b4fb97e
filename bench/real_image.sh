#!/usr/bin/env bash
# What `check` costs the host on much real code, beside `readelf -u` of the same file: host instructions by valgrind's callgrind. The image is a
# program over the stream library of g++ for Armv6-M, stripped of its debug sections, and made one that `check` takes: its tables of C++
# functions become compact ones, and functions that don't agree with their tables return at once (`compact_image.py`).
# `EHABI_AUDIT=PROGRAM EHABI_RUN=PROGRAM bench/real_image.sh` measures another build. Needs arm-none-eabi-g++ with its libraries, python3 and valgrind.
set -eu
top=$(cd "$(dirname "$0")/.." && pwd)
work=$(mktemp -d)
trap 'rm -rf "$work"' EXIT
run=${EHABI_RUN:-}
[ -n "$run" ] || { "$top/ehabi_run" >/dev/null || true; run=$top/out/ehabi_run; }
audit=${EHABI_AUDIT:-}
[ -n "$audit" ] || { "$top/ehabi_audit" >/dev/null || true; audit=$top/out/ehabi_audit; }

cat >"$work/words.cpp" <<'SOURCE'
#include <fstream>
#include <iostream>
#include <map>
#include <sstream>
#include <string>

extern "C" int getentropy(void *, unsigned) { return 0; }

int main() {
    std::map<std::string, int> counts;
    std::string word;
    while (std::cin >> word) counts[word]++;
    for (auto &it : counts) std::cout << it.first << " " << it.second << std::endl;
    std::ifstream file("x");
    std::stringstream text;
    text << file.rdbuf();
    try {
        std::cout << std::stoi(text.str());
    } catch (std::exception &e) {
        std::cerr << e.what();
    }
}
SOURCE
arm-none-eabi-g++ -mcpu=cortex-m0 -mthumb -O1 -fno-jump-tables -mno-sched-prolog -fno-schedule-insns2 --specs=nosys.specs \
    -Wl,--target2=rel -o "$work/words.elf" "$work/words.cpp" 2>"$work/said" || { cat "$work/said" >&2; exit 1; }
arm-none-eabi-strip -g "$work/words.elf"
python3 "$top/bench/compact_image.py" "$work/words.elf" "$work/compact.elf" </dev/null
"$audit" "$work/compact.elf" >"$work/listed" || true
python3 "$top/bench/compact_image.py" "$work/words.elf" "$work/real.elf" <"$work/listed"

instructions() {
    valgrind --tool=callgrind --callgrind-out-file="$work/callgrind" "$@" >"$work/said" 2>"$work/err" || { cat "$work/said" >&2; exit 1; }
    awk '/Collected/ { print $4 }' "$work/err"
}

check=$(instructions "$run" check "$work/real.elf")
said=$(tail -n 1 "$work/said")
readelf=$(instructions readelf -u "$work/real.elf")
awk -v said="$said" -v check="$check" -v readelf="$readelf" \
    'BEGIN { printf "%s: check %d host instructions, readelf -u %d, %.1f times as many\n", said, check, readelf, check / readelf }'
