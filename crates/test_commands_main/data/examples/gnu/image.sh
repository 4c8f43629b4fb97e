#!/usr/bin/env bash
# Makes the images of the programs beside it anew, in a folder of its own, and says of each whether its bytes are those that are kept here. With the word
# `keep` it takes the new ones. Debian 12's packages have the compilers that made those that are kept: gcc-arm-none-eabi 12.2, clang 14.
set -eu
here=$(cd "$(dirname "${BASH_SOURCE[0]}")" && pwd)
made=$(mktemp -d)
trap 'rm -rf "$made"' EXIT
same='-mcpu=cortex-m0 -mthumb -fexceptions -frtti -fno-threadsafe-statics -fno-jump-tables -O1'
gnu="arm-none-eabi-g++ $same -ffreestanding -mno-sched-prolog -fno-schedule-insns2"
clang="clang++ --target=armv6m-none-eabi $same -fno-builtin"
status=0

# NAME COMPILER OBJECT..: compiles and links a program
image() {
    local name=$1 compiler=$2
    shift 2
    $compiler -c "$here/$name.cpp" -o "$made/program.o"
    arm-none-eabi-ld --target2=rel -z noexecstack -z max-page-size=256 -e _start -o "$made/$name.elf" "$made/program.o" "${@/#/$made/}" "$made/helpers.o" "$made/stubs.o"
    arm-none-eabi-strip -g "$made/$name.elf"
    if cmp -s "$made/$name.elf" "$here/$name.elf"; then
        echo "$name.elf: the same"
    else
        echo "$name.elf: differs"
        status=1
    fi
}

for source in stubs helpers long start terminate; do
    arm-none-eabi-as -mcpu=cortex-m0 -mthumb -o "$made/$source.o" "$here/$source.s"
done
for name in frames cleanup types virtual pointers nested noexcept uncaught; do
    image "$name" "$gnu -std=c++14"
done
image spec "$gnu -std=c++03"
image long "$gnu -std=c++14" long.o
image globals "$gnu -std=c++14" start.o
image clang "$clang -std=c++14" terminate.o
if [ "${1-}" = keep ]; then
    cp "$made"/*.elf "$here"
fi
exit "$status"
