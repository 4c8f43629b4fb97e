        .global put_c
        .type put_c, %function
put_c:  .fnstart
        .save {r4, lr}
        push {r4, lr}
        movs r0, #'c'
        bl putchar
        pop {r4, pc}
        .fnend
        .size put_c, .-put_c
