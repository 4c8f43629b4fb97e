@ A function whose exception table the source writes itself: a scope over one call and a handler for `int`. Nothing is
@ thrown here, so it only runs; `build` shows that its tables link.
@
@ $ ./ehabi_run run examples/table.s 1000
@ > ok
@ > -- trace
@ > -- exit 0
@ exit status 0

        .syntax unified
        .global main
        .type main, %function
main:   .fnstart
        .save {r4, lr}
        push {r4, lr}
.Lfrom: bl say
.Lto:   movs r0, #0
        pop {r4, pc}
.Lpad:  bl __cxa_begin_catch
        bl __cxa_end_catch
        movs r0, #1
        pop {r4, pc}
        .personalityindex 0
        .handlerdata
        .short .Lto-.Lfrom+1, .Lfrom-main
        .word .Lpad(prel31), _ZTIi(target2), 0
        .fnend
        .size main, .-main

        .type say, %function
say:    .fnstart
        .save {r4, lr}
        push {r4, lr}
        movs r0, #'o'
        bl putchar
        movs r0, #'k'
        bl putchar
        pop {r4, pc}
        .fnend
        .size say, .-say
