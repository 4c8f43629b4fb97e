@ A handler writes `r` and throws what it caught again. A cleanup ends that handler on the way, as compilers write it for
@ `throw;`, and the handler in `main` writes the number.
@
@ $ ./ehabi_run run examples/rethrow.s 1000
@ > r5
@ > -- trace
@ > throw 38000080 i 05000000
@ > catch middle+8 sp 3FFFFFE8 object 38000080
@ > rethrow 38000080 i 05000000
@ > cleanup middle+16 sp 3FFFFFE8
@ > catch main+8 sp 3FFFFFF0 object 38000080
@ > -- exit 0
@ exit status 0

        .syntax unified
        .global main
        .type main, %function
main:   .fnstart
        .save {r4, lr}
        push {r4, lr}
.Ltry:  bl middle
.Lend:  pop {r4, pc}
.Lcatch: bl __cxa_begin_catch
        ldr r0, [r0]
        adds r0, #'0'
        bl putchar
        bl __cxa_end_catch
        movs r0, #0
        pop {r4, pc}
        .personalityindex 0
        .handlerdata
        .short .Lend-.Ltry+1, .Ltry-main
        .word .Lcatch(prel31), _ZTIi(target2), 0
        .fnend
        .size main, .-main

        .type middle, %function
middle: .fnstart
        .save {r4, lr}
        push {r4, lr}
.Ltry_m: bl boom
.Lend_m: pop {r4, pc}
.Lcatch_m: bl __cxa_begin_catch
        movs r0, #'r'
        bl putchar
.Lfrom: bl __cxa_rethrow
.Lto:
.Lclean: bl __cxa_end_catch
        bl __cxa_end_cleanup
        .personalityindex 0
        .handlerdata
        .short .Lend_m-.Ltry_m+1, .Ltry_m-middle
        .word .Lcatch_m(prel31), 0xFFFFFFFF     @ a catch of everything
        .short .Lto-.Lfrom, .Lfrom-middle
        .word .Lclean(prel31), 0
        .fnend
        .size middle, .-middle

        @ throws 5
        .type boom, %function
boom:   .fnstart
        .save {r4, lr}
        push {r4, lr}
        movs r0, #4
        bl __cxa_allocate_exception
        movs r1, #5
        str r1, [r0]
        ldr r1, =_ZTIi
        movs r2, #0
        bl __cxa_throw
        .fnend
        .size boom, .-boom
