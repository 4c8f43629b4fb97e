        .global put_b
        .type put_b, %function
put_b:  .fnstart
        .save {r4, lr}
        push {r4, lr}
        movs r0, #'b'
        bl putchar
        pop {r4, pc}
        .fnend
        .size put_b, .-put_b
