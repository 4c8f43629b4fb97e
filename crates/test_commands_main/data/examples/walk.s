@ Who called whom, inside a cleanup: at least 24 instructions are run, and then all up to the next call, which is that of
@ `__cxa_end_cleanup`. From there the frames are written, the innermost first. The function that threw has gone; the ones on whose
@ behalf the cleanup runs stand.
@
@ $ ./ehabi_run walk examples/walk.s 24
@ > i
@ > -- trace
@ > throw 38000080 i 2a000000
@ > cleanup inner+E sp 3FFFFFD0
@ > -- frames
@ > frame inner+16 sp 3FFFFFD0
@ > frame outer+4 sp 3FFFFFE8
@ > frame main+4 sp 3FFFFFF0
@ > frame _start+4 sp 3FFFFFF8
@ > -- walked
@ exit status 0

        .syntax unified
        .global main
        .type main, %function
main:   .fnstart
        .save {r4, lr}
        push {r4, lr}
.Ltry:  bl outer
.Lend:  pop {r4, pc}
.Lcatch: bl __cxa_begin_catch
        bl __cxa_end_catch
        movs r0, #0
        pop {r4, pc}
        .personalityindex 0
        .handlerdata
        .short .Lend-.Ltry+1, .Ltry-main
        .word .Lcatch(prel31), _ZTIi(target2), 0
        .fnend
        .size main, .-main

        .type outer, %function
outer:  .fnstart
        .save {r4, lr}
        push {r4, lr}
        bl inner
        pop {r4, pc}
        .fnend
        .size outer, .-outer

        .type inner, %function
inner:  .fnstart
        .save {r4-r6, lr}
        push {r4-r6, lr}
        .pad #8
        sub sp, #8
        movs r4, #'i'
.Lfrom: bl boom
.Lto:   add sp, #8
        pop {r4-r6, pc}
.Lclean: movs r0, r4
        bl putchar
        bl __cxa_end_cleanup
        .personalityindex 0
        .handlerdata
        .short .Lto-.Lfrom, .Lfrom-inner
        .word .Lclean(prel31), 0
        .fnend
        .size inner, .-inner

        @ throws 42
        .type boom, %function
boom:   .fnstart
        .save {r4, lr}
        push {r4, lr}
        movs r0, #4
        bl __cxa_allocate_exception
        movs r4, #42
        str r4, [r0]
        ldr r1, =_ZTIi
        movs r2, #0
        bl __cxa_throw
        .fnend
        .size boom, .-boom
