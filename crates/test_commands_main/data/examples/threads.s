@ Two threads: `main` starts `second`, which throws 7 and catches it with its own handler, while `main` counts down beside it. Their elements
@ come in turns, by the schedule `turns.sched`, which is 01. A line of the trace begins with the number of the thread whose it is. The frame
@ that catches stands at the end of thread 1's home, which begins at 3FFF8000 and ends at 3FFFC000.
@
@ $ ./ehabi_run threads examples/threads.s examples/turns.sched 1000
@ > 7
@ > -- trace
@ > 1 throw 38000080 i 07000000
@ > 1 catch second+A sp 3FFFBFF8 object 38000080
@ > -- exit 0
@ exit status 0

        .syntax unified
        .global main
        .type main, %function
main:   .fnstart
        .save {r4, lr}
        push {r4, lr}
        ldr r0, =second
        movs r1, #7             @ what the new thread has in r0
        svc #32
        movs r4, #100
.Ldown: subs r4, #1
        bne .Ldown
        movs r0, #0
        pop {r4, pc}
        .fnend
        .size main, .-main

        .type second, %function
second: .fnstart
        .save {r4, lr}
        push {r4, lr}
.Ltry:  bl risky
.Lend:  movs r0, #1
        pop {r4, pc}
.Lcatch: bl __cxa_begin_catch
        ldr r4, [r0]
        bl __cxa_end_catch
        movs r0, #48
        adds r0, r0, r4
        bl putchar
        movs r0, #0
        pop {r4, pc}
        .personalityindex 0
        .handlerdata
        .short .Lend-.Ltry+1, .Ltry-second
        .word .Lcatch(prel31), _ZTIi(target2), 0
        .fnend
        .size second, .-second

        .type risky, %function
risky:  .fnstart
        .save {r4, lr}
        push {r4, lr}
        movs r4, r0
        movs r0, #4
        bl __cxa_allocate_exception
        str r4, [r0]
        ldr r1, =_ZTIi
        movs r2, #0
        bl __cxa_throw
        .fnend
        .size risky, .-risky
