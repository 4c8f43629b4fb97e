@ Throws an int and catches it. `main` calls `risky`, which throws 7; the handler in `main` writes the number that it caught.
@
@ $ ./ehabi_run run examples/throw.s 1000
@ > 7
@ > -- trace
@ > throw 38000080 i 07000000
@ > catch main+A sp 3FFFFFF0 object 38000080
@ > -- exit 0
@ exit status 0

        .syntax unified
        .global main
        .type main, %function
main:   .fnstart
        .save {r4, lr}
        push {r4, lr}
.Ltry:  bl risky
.Lend:  movs r0, #1             @ nothing was thrown
        pop {r4, pc}
.Lcatch: bl __cxa_begin_catch   @ gives the address of what was thrown
        ldr r0, [r0]
        adds r0, #'0'
        bl putchar
        bl __cxa_end_catch
        movs r0, #0
        pop {r4, pc}
        .personalityindex 0
        .handlerdata
        .short .Lend-.Ltry+1, .Ltry-main         @ 1 more in the length marks a catch
        .word .Lcatch(prel31), _ZTIi(target2), 0
        .fnend
        .size main, .-main

        .type risky, %function
risky:  .fnstart
        .save {r4, lr}
        push {r4, lr}
        movs r0, #4
        bl __cxa_allocate_exception
        movs r1, #7
        str r1, [r0]
        ldr r1, =_ZTIi
        movs r2, #0             @ an int needs no destructor
        bl __cxa_throw
        .fnend
        .size risky, .-risky
