        .global put_e
        .type put_e, %function
put_e:  .fnstart
        .save {r4, lr}
        push {r4, lr}
        movs r0, #'e'
        bl putchar
        pop {r4, pc}
        .fnend
        .size put_e, .-put_e
