@ Adds a word of the data to a word that begins as zero, four times, and writes the sum as a digit.
@
@ $ ./ehabi_run run examples/counter.s 1000
@ > 8
@ > -- trace
@ > -- exit 0
@ exit status 0

        .syntax unified
        .global main
        .type main, %function
main:   .fnstart
        .save {r4-r6, lr}
        push {r4-r6, lr}
        ldr r4, =step
        ldr r5, =total
        movs r6, #4
.Lnext: ldr r0, [r4]
        ldr r1, [r5]
        adds r1, r1, r0
        str r1, [r5]
        subs r6, #1
        bne .Lnext
        ldr r0, [r5]
        adds r0, #'0'
        bl putchar
        movs r0, #0
        pop {r4-r6, pc}
        .fnend
        .size main, .-main

        .data
step:   .word 2
        .size step, .-step

        .bss
total:  .space 4
        .size total, .-total
