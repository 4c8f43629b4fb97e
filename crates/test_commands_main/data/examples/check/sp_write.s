@ A frame of 1,024 bytes, taken by adding a register to sp, as compilers do for frames above 508 bytes.
@
@ $ ./ehabi_run check examples/check/sp_write.s
@ > main+4: SpWrite
@ exit status 3

        .syntax unified
        .global main
        .type main, %function
main:   .fnstart
        .save {r4, lr}
        push {r4, lr}
        ldr r3, =-1024
        .pad #1024
        add sp, r3
        bl getchar
        ldr r3, =1024
        add sp, r3
        pop {r4, pc}
        .fnend
