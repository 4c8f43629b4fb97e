@ A function with a frame: saved registers, a frame pointer and twelve bytes of its own, each with its unwind directive.
@ It writes three digits backwards through its frame.
@
@ $ ./ehabi_run run examples/frame.s 1000
@ > 321
@ > -- trace
@ > -- exit 0
@ exit status 0

        .syntax unified
        .global main
        .type main, %function
main:   .fnstart
        .save {r4, r7, lr}
        push {r4, r7, lr}
        .setfp r7, sp, #0
        add r7, sp, #0
        .pad #12
        sub sp, #12
        movs r0, #'1'
        str r0, [sp, #0]
        movs r0, #'2'
        str r0, [sp, #4]
        movs r0, #'3'
        str r0, [sp, #8]
        movs r4, #8
.Lnext: mov r0, sp
        ldr r0, [r0, r4]
        bl putchar
        subs r4, #4
        bpl .Lnext
        movs r0, #0
        mov sp, r7
        pop {r4, r7, pc}
        .fnend
        .size main, .-main
