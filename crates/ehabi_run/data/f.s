        .global put_f
        .type put_f, %function
put_f:  .fnstart
        .save {r4, lr}
        push {r4, lr}
        movs r0, #'f'
        bl putchar
        pop {r4, pc}
        .fnend
        .size put_f, .-put_f
