@ A thread stores into a word of another thread's stack where a register was saved. `_start` calls `main` and saves its return address at
@ 3FFFFFFC; the second thread stores 0 there. The store is a trap, whichever thread's word it is, and nothing is stored.
@
@ By the schedule `first.sched`, which is 0000001111, thread 0 has six elements, and starts thread 1 by the last of them.
@
@ $ ./ehabi_run threads examples/threads_saved_slot.s examples/first.sched 1000
@ >
@ > -- trace
@ > -- trap SavedSlot 3FFFFFFC at 00008010
@ exit status 5

        .syntax unified
        .global main
        .type main, %function
main:   .fnstart
        .save {r4, lr}
        push {r4, lr}
        ldr r0, =second
        movs r1, #0
        svc #32
        movs r0, #0
        pop {r4, pc}
        .fnend
        .size main, .-main

        .type second, %function
second: .fnstart
        ldr r0, =0x3FFFFFFC
        movs r1, #0
        str r1, [r0]
        bx lr
        .fnend
        .size second, .-second
