        .global put_g
        .type put_g, %function
put_g:  .fnstart
        .save {r4, lr}
        push {r4, lr}
        movs r0, #'g'
        bl putchar
        pop {r4, pc}
        .fnend
        .size put_g, .-put_g
