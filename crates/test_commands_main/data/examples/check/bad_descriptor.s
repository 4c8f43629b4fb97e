@ A descriptor that is marked as a catch (length plus 1) and as a specification (offset plus 1).
@
@ $ ./ehabi_run check examples/check/bad_descriptor.s
@ > main+0: BadDescriptor
@ exit status 3

        .syntax unified
        .global main
        .type main, %function
main:   .fnstart
        .save {r4, lr}
        push {r4, lr}
.Lfrom: bl getchar
.Lto:   pop {r4, pc}
        .personalityindex 0
        .handlerdata
        .short .Lto-.Lfrom+1, .Lfrom-main+1
        .word 0, 0
        .fnend
