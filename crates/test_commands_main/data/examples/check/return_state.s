@ A function returns, and r4 isn't as its caller left it.
@
@ $ ./ehabi_run check examples/check/return_state.s
@ > main+2: ReturnState
@ exit status 3

        .syntax unified
        .global main
        .type main, %function
main:   movs r4, #0
        bx lr
