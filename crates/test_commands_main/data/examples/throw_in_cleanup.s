@ A cleanup calls two functions that throw. `safe` catches what it throws, so nothing leaves the cleanup. `boom` does not: a throw that
@ would leave a cleanup while another throw is on its way ends the program. The handler in `main` is never entered.
@
@ $ ./ehabi_run run examples/throw_in_cleanup.s 1000
@ > s
@ > -- trace
@ > throw 38000080 i 07000000
@ > cleanup middle+8 sp 3FFFFFE8
@ > throw 38000280 i 07000000
@ > catch safe+8 sp 3FFFFFE0 object 38000280
@ > throw 38000280 i 07000000
@ > -- terminate LeavesCleanup
@ exit status 4

        .syntax unified
        .global main
        .type main, %function
main:   .fnstart
        .save {r4, lr}
        push {r4, lr}
.Ltry:  bl middle
.Lend:  pop {r4, pc}
.Lcatch: bl __cxa_begin_catch
        bl __cxa_end_catch
        movs r0, #0
        pop {r4, pc}
        .personalityindex 0
        .handlerdata
        .short .Lend-.Ltry+1, .Ltry-main
        .word .Lcatch(prel31), _ZTIi(target2), 0
        .fnend
        .size main, .-main

        .type middle, %function
middle: .fnstart
        .save {r4, lr}
        push {r4, lr}
.Lfrom: bl boom
.Lto:   pop {r4, pc}
.Lclean: bl safe
        bl boom
        bl __cxa_end_cleanup
        .personalityindex 0
        .handlerdata
        .short .Lto-.Lfrom, .Lfrom-middle
        .word .Lclean(prel31), 0
        .fnend
        .size middle, .-middle

        .type safe, %function
safe:   .fnstart
        .save {r4, lr}
        push {r4, lr}
.Ltry_s: bl boom
.Lend_s: pop {r4, pc}
.Lcatch_s: bl __cxa_begin_catch
        bl __cxa_end_catch
        movs r0, #'s'
        bl putchar
        pop {r4, pc}
        .personalityindex 0
        .handlerdata
        .short .Lend_s-.Ltry_s+1, .Ltry_s-safe
        .word .Lcatch_s(prel31), _ZTIi(target2), 0
        .fnend
        .size safe, .-safe

        @ throws 7
        .type boom, %function
boom:   .fnstart
        .save {r4, lr}
        push {r4, lr}
        movs r0, #4
        bl __cxa_allocate_exception
        movs r1, #7
        str r1, [r0]
        ldr r1, =_ZTIi
        movs r2, #0
        bl __cxa_throw
        .fnend
        .size boom, .-boom
