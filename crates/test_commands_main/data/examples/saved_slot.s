@ A loop writes one word too many into two words of the stack. The third is where r4 was saved: a throw would give `main` that number as its
@ r4, so the write is a trap.
@
@ $ ./ehabi_run run examples/saved_slot.s 1000
@ >
@ > -- trace
@ > -- trap SavedSlot 3FFFFFE8 at 00008012
@ exit status 5

        .syntax unified
        .global main
        .type main, %function
main:   .fnstart
        .save {r4, lr}
        push {r4, lr}
        bl fill
        movs r0, #0
        pop {r4, pc}
        .fnend
        .size main, .-main

        .type fill, %function
fill:   .fnstart
        .save {r4, lr}
        push {r4, lr}
        .pad #8
        sub sp, #8
        mov r0, sp
        movs r1, #3             @ 2 would be right
.Lnext: str r1, [r0]
        adds r0, #4
        subs r1, #1
        bne .Lnext
        add sp, #8
        pop {r4, pc}
        .fnend
        .size fill, .-fill
