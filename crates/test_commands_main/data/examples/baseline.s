@ Runs in the second profile, as the word 2 at `__ehabi_profile` says. `main` divides 300 by 7 and hands the quotient to `risky`, which
@ throws what isn't 0; the handler in `main` writes the byte of the number that it caught, 42.
@
@ $ ./ehabi_run run examples/baseline.s 1000
@ > *
@ > -- trace
@ > throw 38000080 i 2a000000
@ > catch main+14 sp 3FFFFFF0 object 38000080
@ > -- exit 0
@ exit status 0

        .syntax unified
        .arch armv8-m.base      @ passed over here; other assemblers want it for the instructions of this profile
        .global main
        .type main, %function
main:   .fnstart
        .save {r4, lr}
        push {r4, lr}
        movw r0, #300
        movs r1, #7
        sdiv r0, r0, r1
.Ltry:  bl risky
.Lend:  movs r0, #1             @ the quotient was 0
        pop {r4, pc}
.Lcatch: bl __cxa_begin_catch   @ gives the address of what was thrown
        ldr r0, [r0]
        bl putchar
        bl __cxa_end_catch
        movs r0, #0
        pop {r4, pc}
        .personalityindex 0
        .handlerdata
        .short .Lend-.Ltry+1, .Ltry-main         @ 1 more in the length marks a catch
        .word .Lcatch(prel31), _ZTIi(target2), 0
        .fnend
        .size main, .-main

        .type risky, %function
risky:  .fnstart
        .save {r4, lr}
        push {r4, lr}
        cbz r0, .Lnone
        mov r4, r0
        movs r0, #4
        bl __cxa_allocate_exception
        str r4, [r0]
        ldr r1, =_ZTIi
        movs r2, #0             @ an int needs no destructor
        bl __cxa_throw
.Lnone: pop {r4, pc}
        .fnend
        .size risky, .-risky

        .section .rodata
        .global __ehabi_profile
        .align 2
__ehabi_profile: .word 2        @ the second profile
