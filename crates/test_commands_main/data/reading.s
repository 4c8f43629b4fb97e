        .global main
        .type main, %function
main:   .fnstart
        .save {r4, lr}
        push {r4, lr}
        bl getchar
        bl putchar
        bl getchar
        movs r0, #0
        pop {r4, pc}
        .fnend
