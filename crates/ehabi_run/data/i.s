        .global put_i
        .type put_i, %function
put_i:  .fnstart
        .save {r4, lr}
        push {r4, lr}
        movs r0, #'i'
        bl putchar
        pop {r4, pc}
        .fnend
        .size put_i, .-put_i
