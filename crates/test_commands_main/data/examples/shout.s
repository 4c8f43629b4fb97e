@ Reads its input to the end and writes it in capitals. It exits with the number of bytes.
@
@ < mind the gap
@ $ ./ehabi_run run examples/shout.s 1000
@ > MIND THE GAP
@ >
@ > -- trace
@ > -- exit 13
@ exit status 1

        .syntax unified
        .global main
        .type main, %function
main:   .fnstart
        .save {r4, lr}
        push {r4, lr}
        movs r4, #0
.Lnext: bl getchar
        adds r1, r0, #1         @ the end of the input is -1
        beq .Ldone
        adds r4, #1
        cmp r0, #'a'
        blo .Lput
        cmp r0, #'z'
        bhi .Lput
        subs r0, #32
.Lput:  bl putchar
        b .Lnext
.Ldone: movs r0, r4
        pop {r4, pc}
        .fnend
        .size main, .-main
