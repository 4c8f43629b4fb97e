@ Eight bytes of the frame are missing in the unwind directives: at the call the table finds r4 where other bytes are.
@
@ $ ./ehabi_run check examples/check/call_state.s
@ > main+4: CallState r4
@ exit status 3

        .syntax unified
        .global main
        .type main, %function
main:   .fnstart
        .save {r4, lr}
        push {r4, lr}
        sub sp, #8
        bl getchar
        add sp, #8
        pop {r4, pc}
        .fnend
