@ Nobody catches an int: `main` has a handler for `char` alone. The search comes to the end of the stack before anything is
@ entered, so not even the cleanup of `middle` runs.
@
@ $ ./ehabi_run run examples/uncaught.s 1000
@ >
@ > -- trace
@ > throw 38000080 i 07000000
@ > -- terminate NoHandler
@ exit status 4

        .syntax unified
        .global main
        .type main, %function
main:   .fnstart
        .save {r4, lr}
        push {r4, lr}
.Ltry:  bl middle
.Lend:  pop {r4, pc}
.Lcatch: bl __cxa_begin_catch
        bl __cxa_end_catch
        movs r0, #0
        pop {r4, pc}
        .personalityindex 0
        .handlerdata
        .short .Lend-.Ltry+1, .Ltry-main
        .word .Lcatch(prel31), _ZTIc(target2), 0
        .fnend
        .size main, .-main

        .type middle, %function
middle: .fnstart
        .save {r4, lr}
        push {r4, lr}
.Lfrom: bl boom
.Lto:   pop {r4, pc}
.Lclean: movs r0, #'c'
        bl putchar
        bl __cxa_end_cleanup
        .personalityindex 0
        .handlerdata
        .short .Lto-.Lfrom, .Lfrom-middle
        .word .Lclean(prel31), 0
        .fnend
        .size middle, .-middle

        @ throws 7
        .type boom, %function
boom:   .fnstart
        .save {r4, lr}
        push {r4, lr}
        movs r0, #4
        bl __cxa_allocate_exception
        movs r1, #7
        str r1, [r0]
        ldr r1, =_ZTIi
        movs r2, #0
        bl __cxa_throw
        .fnend
        .size boom, .-boom

        .section .rodata
_ZTIc:  .word _ZTVN10__cxxabiv123__fundamental_type_infoE+8, .Lname
.Lname: .asciz "c"
