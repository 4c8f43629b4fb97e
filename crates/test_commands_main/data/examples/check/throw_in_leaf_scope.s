@ A gate in a scope, in a function that has put nothing on the stack.
@
@ $ ./ehabi_run check examples/check/throw_in_leaf_scope.s
@ > main+0: ThrowInLeafScope
@ exit status 3

        .syntax unified
        .global main
        .type main, %function
main:   .fnstart
.Lfrom: svc #2
.Lto:   bx lr
.Lpad:  udf #0
        .personalityindex 0
        .handlerdata
        .short .Lto-.Lfrom+1, .Lfrom-main
        .word .Lpad(prel31), 0xFFFFFFFF, 0
        .fnend
