@ An exception with a destructor. The handler writes `h`; when it ends, the destructor is called with the object's address and
@ writes what the object holds, and then the object is given back.
@
@ $ ./ehabi_run run examples/destructor.s 1000
@ > hd
@ > -- trace
@ > throw 38000080 i 64000000
@ > catch main+8 sp 3FFFFFF0 object 38000080
@ > -- exit 0
@ exit status 0

        .syntax unified
        .global main
        .type main, %function
main:   .fnstart
        .save {r4, lr}
        push {r4, lr}
.Ltry:  bl boom
.Lend:  pop {r4, pc}
.Lcatch: bl __cxa_begin_catch
        movs r0, #'h'
        bl putchar
        bl __cxa_end_catch
        movs r0, #0
        pop {r4, pc}
        .personalityindex 0
        .handlerdata
        .short .Lend-.Ltry+1, .Ltry-main
        .word .Lcatch(prel31), 0xFFFFFFFF, 0    @ a catch of everything
        .fnend
        .size main, .-main

        .type boom, %function
boom:   .fnstart
        .save {r4, lr}
        push {r4, lr}
        movs r0, #4
        bl __cxa_allocate_exception
        movs r1, #'d'
        str r1, [r0]
        ldr r1, =_ZTIi
        ldr r2, =destroy
        bl __cxa_throw
        .fnend
        .size boom, .-boom

        .type destroy, %function
destroy: .fnstart
        .save {r4, lr}
        push {r4, lr}
        ldr r0, [r0]
        bl putchar
        pop {r4, pc}
        .fnend
        .size destroy, .-destroy
