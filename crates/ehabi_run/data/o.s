        .global put_o
        .type put_o, %function
put_o:  .fnstart
        .save {r4, lr}
        push {r4, lr}
        movs r0, #'o'
        bl putchar
        pop {r4, pc}
        .fnend
        .size put_o, .-put_o
