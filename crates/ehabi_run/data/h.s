        .global put_h
        .type put_h, %function
put_h:  .fnstart
        .save {r4, lr}
        push {r4, lr}
        movs r0, #'h'
        bl putchar
        pop {r4, pc}
        .fnend
        .size put_h, .-put_h
