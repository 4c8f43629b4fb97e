        .global put_p
        .type put_p, %function
put_p:  .fnstart
        .save {r4, lr}
        push {r4, lr}
        movs r0, #'p'
        bl putchar
        pop {r4, pc}
        .fnend
        .size put_p, .-put_p
