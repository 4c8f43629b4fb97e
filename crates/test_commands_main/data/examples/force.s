@ A loop without an end is told to end: after 8 instructions, and all up to the next call, which is that of `work`, the run is unwound by
@ force to frame 1, which is that of `main`. The cleanup of `inner` on the way is done, and `main` catches what was thrown, since its catch
@ is one of everything. `run` with these words would come to its budget, and `force` with frame 0 would be refused: `inner` catches nothing.
@
@ `./ehabi_run force examples/force.s 8 1` writes, with status 0:
@
@     ck
@     -- trace
@     throw 38000080 i -
@     cleanup inner+8 sp 3FFFFFE8
@     catch main+A sp 3FFFFFF0 object 38000080
@     -- exit 0
@
@ Without being told to, it comes to no end:
@
@ $ ./ehabi_run run examples/force.s 8
@ >
@ > -- trace
@ > -- budget
@ exit status 6

        .syntax unified
        .global main
        .type main, %function
main:   .fnstart
        .save {r4, lr}
        push {r4, lr}
.Ltry:  bl inner
.Lend:  movs r0, #1
        pop {r4, pc}
.Lcatch: bl __cxa_begin_catch
        bl __cxa_end_catch
        movs r0, #107
        bl putchar
        movs r0, #0
        pop {r4, pc}
        .personalityindex 0
        .handlerdata
        .short .Lend-.Ltry+1, .Ltry-main
        .word .Lcatch(prel31), 0xFFFFFFFF, 0
        .fnend
        .size main, .-main

        .type inner, %function
inner:  .fnstart
        .save {r4, lr}
        push {r4, lr}
.Lgo:   bl work
.Ldone: b .Lgo
.Lclean: movs r0, #99
        bl putchar
        bl __cxa_end_cleanup
        .personalityindex 0
        .handlerdata
        .short .Ldone-.Lgo, .Lgo-inner
        .word .Lclean(prel31), 0
        .fnend
        .size inner, .-inner

        .type work, %function
work:   .fnstart
        bx lr
        .fnend
        .size work, .-work
