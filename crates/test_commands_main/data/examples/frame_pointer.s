@ A function whose stack pointer moves between its calls. Its table finds the frame by r7, which stays (`.setfp`). `boom` changes r7 as well,
@ so the throw takes it from where `boom` saved it, and then the frame of `deep` from r7.
@
@ $ ./ehabi_run run examples/frame_pointer.s 1000
@ > sd
@ > -- trace
@ > throw 38000080 i 00000000
@ > cleanup deep+18 sp 3FFFFF84
@ > catch main+8 sp 3FFFFFF0 object 38000080
@ > -- exit 0
@ exit status 0

        .syntax unified
        .global main
        .type main, %function
main:   .fnstart
        .save {r4, lr}
        push {r4, lr}
.Ltry:  bl deep
.Lend:  pop {r4, pc}
.Lcatch: bl __cxa_begin_catch
        bl __cxa_end_catch
        movs r0, #0
        pop {r4, pc}
        .personalityindex 0
        .handlerdata
        .short .Lend-.Ltry+1, .Ltry-main
        .word .Lcatch(prel31), _ZTIi(target2), 0
        .fnend
        .size main, .-main

        .type deep, %function
deep:   .fnstart
        .save {r4, r7, lr}
        push {r4, r7, lr}
        .setfp r7, sp, #0
        mov r7, sp
        movs r4, #'d'
        sub sp, #32
        movs r0, #'s'
        bl putchar              @ here sp is r7 - 32
        sub sp, #64
.Lfrom: bl boom                 @ and here r7 - 96
.Lto:   mov sp, r7
        pop {r4, r7, pc}
.Lclean: movs r0, r4
        bl putchar
        bl __cxa_end_cleanup
        .personalityindex 0
        .handlerdata
        .short .Lto-.Lfrom, .Lfrom-deep
        .word .Lclean(prel31), 0
        .fnend
        .size deep, .-deep

        @ throws 0
        .type boom, %function
boom:   .fnstart
        .save {r4, r7, lr}
        push {r4, r7, lr}
        movs r0, #4
        bl __cxa_allocate_exception
        movs r7, #0
        str r7, [r0]
        ldr r1, =_ZTIi
        movs r2, #0
        bl __cxa_throw
        .fnend
        .size boom, .-boom
