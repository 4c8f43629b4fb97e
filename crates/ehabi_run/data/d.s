        .global put_d
        .type put_d, %function
put_d:  .fnstart
        .save {r4, lr}
        push {r4, lr}
        movs r0, #'d'
        bl putchar
        pop {r4, pc}
        .fnend
        .size put_d, .-put_d
