@ Two files that call each other: `main` calls `sum` of two_sum.s, which calls `show` of this file.
@
@ $ ./ehabi_run run examples/two_main.s examples/two_sum.s 1000
@ > 7
@ > -- trace
@ > -- exit 7
@ exit status 1

        .syntax unified
        .global main
        .type main, %function
main:   .fnstart
        .save {r4, lr}
        push {r4, lr}
        movs r0, #3
        movs r1, #4
        bl sum
        pop {r4, pc}
        .fnend
        .size main, .-main

        @ writes r0 as a digit and gives it back
        .global show
        .type show, %function
show:   .fnstart
        .save {r4, lr}
        push {r4, lr}
        movs r4, r0
        adds r0, #'0'
        bl putchar
        movs r0, r4
        pop {r4, pc}
        .fnend
        .size show, .-show
