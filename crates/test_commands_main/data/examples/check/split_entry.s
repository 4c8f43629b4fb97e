@ A second unwind entry begins in the middle of a function, in front of its call.
@
@ $ ./ehabi_run check examples/check/split_entry.s
@ > main+0: SplitEntry
@ exit status 3

        .syntax unified
        .global main
        .type main, %function
main:   .fnstart
        .save {r4, lr}
        push {r4, lr}
        .fnend
        .fnstart
        .save {r4, lr}
        bl getchar
        pop {r4, pc}
        .fnend
