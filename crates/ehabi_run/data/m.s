        .global put_m
        .type put_m, %function
put_m:  .fnstart
        .save {r4, lr}
        push {r4, lr}
        movs r0, #'m'
        bl putchar
        pop {r4, pc}
        .fnend
        .size put_m, .-put_m
