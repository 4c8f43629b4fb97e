@ A cleanup whose landing pad stands in another function.
@
@ $ ./ehabi_run check examples/check/pad_depth.s
@ > main+2: PadDepth
@ exit status 3

        .syntax unified
        .global main
        .type main, %function
main:   .fnstart
        .save {r4, lr}
        push {r4, lr}
.Lfrom: bl getchar
.Lto:   pop {r4, pc}
        .personalityindex 0
        .handlerdata
        .short .Lto-.Lfrom, .Lfrom-main
        .word clean(prel31), 0
        .fnend

        .type clean, %function
clean:  .fnstart
        .save {r4, lr}
        push {r4, lr}
        bl __cxa_end_cleanup
        .fnend
