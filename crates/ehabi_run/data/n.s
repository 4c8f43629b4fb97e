        .global put_n
        .type put_n, %function
put_n:  .fnstart
        .save {r4, lr}
        push {r4, lr}
        movs r0, #'n'
        bl putchar
        pop {r4, pc}
        .fnend
        .size put_n, .-put_n
