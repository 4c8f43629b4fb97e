#!/usr/bin/env bash
# Refuses the program's requests for memory, one in each run: the first, the second, and so on through all of them, of `run` of a
# program that throws and catches and writes k, and of `gen 1 4`. Each run then has to answer 9, where what it wrote is a first
# part of the report, and all of what the guest writes if anything; or it gives the whole report, where less memory did as well
# (docs/guide/command-line.md). The requests are those of the C library's malloc and realloc, of which the program takes all its memory,
# so those of the start of the process are among them. Prints a line for each command, and ends with 1 where a run answered otherwise.
# Needs cc.
#
#     bench/refused_memory.sh [PROGRAM]
#
# PROGRAM is the one to try, ehabi_run where none is named, which is proved and built first.
set -eu
top=$(cd "$(dirname "$0")/.." && pwd)
program=$(realpath "${1-$top/out/ehabi_run}")
[ $# -eq 1 ] || "$top/ehabi_run" >/dev/null || true
work=$(mktemp -d)
trap 'rm -rf "$work"' EXIT
cp "$top/examples/throw.s" "$work"
cd "$work"

# counts requests, refuses one by its number, and leaves the count in a file
cat >refuses.c <<'C'
#define _GNU_SOURCE
#include <dlfcn.h>
#include <errno.h>
#include <fcntl.h>
#include <stdio.h>
#include <stdlib.h>
#include <unistd.h>
extern void *__libc_malloc(size_t);
extern void *__libc_realloc(void *, size_t);
static long made, refused = -1;
static int is_refused(void)
{
    if (refused < 0) {
        const char *number = getenv("REFUSED_REQUEST");
        refused = number ? atol(number) : 0;
    }
    if (++made != refused) return 0;
    errno = ENOMEM;
    return 1;
}
void *malloc(size_t size) { return is_refused() ? NULL : __libc_malloc(size); }
void *realloc(void *old, size_t size) { return is_refused() ? NULL : __libc_realloc(old, size); }
__attribute__((destructor)) static void tell(void)
{
    char text[24];
    int file = open("made", O_WRONLY | O_CREAT | O_TRUNC, 0600);
    int length = snprintf(text, sizeof text, "%ld\n", made);
    if (write(file, text, length) != length) _exit(99);
    close(file);
}
C
cc -O1 -shared -fPIC -o refuses.so refuses.c

# runs the program with a request refused, none where it is 0: what it writes goes to the file named, its status to the variable
call() {
    local refused=$1 out=$2
    shift 2
    status=0
    REFUSED_REQUEST=$refused LD_PRELOAD=$work/refuses.so "$program" "$@" >"$out" 2>err </dev/null || status=$?
    [ ! -s err ] || { echo "$*: standard error, with request $refused refused" >&2; wrong=1; }
}

# whether the file said is a first part of the report, with all that the guest writes if it has anything
is_first_part() {
    local size
    size=$(stat -c %s said)
    [ "$size" -eq 0 ] && return
    [ "$size" -ge "${#guest}" ] && cmp -s -n "$size" said report
}

# $1 is what the guest writes, and after it stands the command
refuse_each() {
    guest=$1
    shift
    local requests whole answered=0 reports=0
    call 0 report "$@"
    whole=$status
    requests=$(cat made)
    for ((k = 1; k <= requests; k++)); do
        call "$k" said "$@"
        if [ "$status" -eq 9 ] && is_first_part; then
            answered=$((answered + 1))
        elif [ "$status" -eq "$whole" ] && cmp -s said report; then
            reports=$((reports + 1))
        else
            echo "$*: status $status, with request $k of $requests refused" >&2
            wrong=1
        fi
    done
    echo "$*: $requests requests, of which $answered are answered by 9 and $reports by the whole report"
}

wrong=0
refuse_each 7 run throw.s 1000
refuse_each '' gen 1 4
exit "$wrong"
