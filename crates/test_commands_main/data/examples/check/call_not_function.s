@ A call to a label that isn't marked as a function.
@
@ $ ./ehabi_run check examples/check/call_not_function.s
@ > main+2: CallNotFunction
@ exit status 3

        .syntax unified
        .global main
        .type main, %function
main:   .fnstart
        .save {r4, lr}
        push {r4, lr}
        bl zero
        pop {r4, pc}
zero:   movs r0, #0
        bx lr
        .fnend
