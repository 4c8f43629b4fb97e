@ The directives say twice that r4 was saved.
@
@ $ ./ehabi_run check examples/check/bad_bytecode.s
@ > main+0: BadBytecode
@ exit status 3

        .syntax unified
        .global main
        .type main, %function
main:   .fnstart
        .save {r4, lr}
        push {r4, lr}
        .save {r4}
        push {r4}
        bl getchar
        pop {r4}
        pop {r4, pc}
        .fnend
