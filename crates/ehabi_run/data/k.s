        .global put_k
        .type put_k, %function
put_k:  .fnstart
        .save {r4, lr}
        push {r4, lr}
        movs r0, #'k'
        bl putchar
        pop {r4, pc}
        .fnend
        .size put_k, .-put_k
