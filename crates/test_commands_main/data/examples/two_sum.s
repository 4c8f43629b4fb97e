@ The second file of two_main.s: adds r0 and r1, shows the sum and gives it back.

        .syntax unified
        .global sum
        .type sum, %function
sum:    .fnstart
        .save {r4, lr}
        push {r4, lr}
        adds r0, r0, r1
        bl show
        pop {r4, pc}
        .fnend
        .size sum, .-sum
