        .global put_j
        .type put_j, %function
put_j:  .fnstart
        .save {r4, lr}
        push {r4, lr}
        movs r0, #'j'
        bl putchar
        pop {r4, pc}
        .fnend
        .size put_j, .-put_j
