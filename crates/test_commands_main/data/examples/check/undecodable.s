@ A function begins with a halfword that this core can't run, BKPT #0.
@
@ $ ./ehabi_run check examples/check/undecodable.s
@ > main+0: Undecodable
@ exit status 3

        .syntax unified
        .global main
        .type main, %function
main:   .short 0xBE00
        bx lr
