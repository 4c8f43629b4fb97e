@ Two functions on the way of a throw have a cleanup each, as for a local object with a destructor. The inner one runs first, and
@ each finds its own r4 again, which the functions that it called had changed.
@
@ $ ./ehabi_run run examples/cleanups.s 1000
@ > iom
@ > -- trace
@ > throw 38000080 i 2a000000
@ > cleanup inner+E sp 3FFFFFD0
@ > cleanup outer+C sp 3FFFFFE8
@ > catch main+8 sp 3FFFFFF0 object 38000080
@ > -- exit 0
@ exit status 0

        .syntax unified
        .global main
        .type main, %function
main:   .fnstart
        .save {r4, lr}
        push {r4, lr}
.Ltry:  bl outer
.Lend:  pop {r4, pc}
.Lcatch: bl __cxa_begin_catch
        bl __cxa_end_catch
        movs r0, #'m'
        bl putchar
        movs r0, #0
        pop {r4, pc}
        .personalityindex 0
        .handlerdata
        .short .Lend-.Ltry+1, .Ltry-main
        .word .Lcatch(prel31), _ZTIi(target2), 0
        .fnend
        .size main, .-main

        .type outer, %function
outer:  .fnstart
        .save {r4, lr}
        push {r4, lr}
        movs r4, #'o'
.Lfrom_o: bl inner
.Lto_o: movs r0, #0
        pop {r4, pc}
.Lclean_o: movs r0, r4
        bl putchar
        bl __cxa_end_cleanup
        .personalityindex 0
        .handlerdata
        .short .Lto_o-.Lfrom_o, .Lfrom_o-outer   @ no mark: a cleanup
        .word .Lclean_o(prel31), 0
        .fnend
        .size outer, .-outer

        .type inner, %function
inner:  .fnstart
        .save {r4-r6, lr}
        push {r4-r6, lr}
        .pad #8
        sub sp, #8
        movs r4, #'i'
.Lfrom_i: bl boom
.Lto_i: add sp, #8
        pop {r4-r6, pc}
.Lclean_i: movs r0, r4
        bl putchar
        bl __cxa_end_cleanup
        .personalityindex 0
        .handlerdata
        .short .Lto_i-.Lfrom_i, .Lfrom_i-inner
        .word .Lclean_i(prel31), 0
        .fnend
        .size inner, .-inner

        @ throws 42
        .type boom, %function
boom:   .fnstart
        .save {r4, lr}
        push {r4, lr}
        movs r0, #4
        bl __cxa_allocate_exception
        movs r4, #42
        str r4, [r0]
        ldr r1, =_ZTIi
        movs r2, #0
        bl __cxa_throw
        .fnend
        .size boom, .-boom
