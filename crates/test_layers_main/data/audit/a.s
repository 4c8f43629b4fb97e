        .global main
        .type main, %function
main:   .fnstart
        .save {r4, lr}
        push {r4, lr}
.Lb:    bl f
.Le:    movs r0, #1
        pop {r4, pc}
.Lp:    bl __cxa_begin_catch
        bl __cxa_end_catch
        movs r0, #107
        bl putchar
        movs r0, #0
        pop {r4, pc}
        .personalityindex 0
        .handlerdata
        .half .Le-.Lb+1, .Lb-main
        .word .Lp(prel31), _ZTIi(target2), 0
        .fnend
        .type f, %function
f:      .fnstart
        .save {r4, lr}
        push {r4, lr}
        movs r0, #4
        bl __cxa_allocate_exception
        movs r1, #7
        str r1, [r0]
        ldr r1, =_ZTIi
        movs r2, #0
        bl __cxa_throw
        .fnend
