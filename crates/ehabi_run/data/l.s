        .global put_l
        .type put_l, %function
put_l:  .fnstart
        .save {r4, lr}
        push {r4, lr}
        movs r0, #'l'
        bl putchar
        pop {r4, pc}
        .fnend
        .size put_l, .-put_l
