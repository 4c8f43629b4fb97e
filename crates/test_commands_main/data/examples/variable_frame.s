@ A frame whose size is known only at run time, as that of an array on the stack. `array` lowers sp by as many bytes as r0 says: the `mov` into
@ sp stands right behind the `subs` that left its value, which makes it a lowering place. Its table finds the frame by r7, which stays.
@ Were r0 negative, so that sp rose there, the run would end by the trap SpRaised.
@
@ $ ./ehabi_run run examples/variable_frame.s 1000
@ > k
@ > -- trace
@ > throw 38000080 i 07000000
@ > catch main+C sp 3FFFFFF0 object 38000080
@ > -- exit 0
@ exit status 0

        .syntax unified
        .global main
        .type main, %function
main:   .fnstart
        .save {r4, lr}
        push {r4, lr}
        movs r0, #16            @ the size
.Ltry:  bl array
.Lend:  movs r0, #1
        pop {r4, pc}
.Lcatch: bl __cxa_begin_catch
        bl __cxa_end_catch
        movs r0, #'k'
        bl putchar
        movs r0, #0
        pop {r4, pc}
        .personalityindex 0
        .handlerdata
        .short .Lend-.Ltry+1, .Ltry-main
        .word .Lcatch(prel31), _ZTIi(target2), 0
        .fnend
        .size main, .-main

        .type array, %function
array:  .fnstart
        .save {r4, r7, lr}
        push {r4, r7, lr}
        .setfp r7, sp, #0
        add r7, sp, #0
        mov r3, sp
        subs r3, r3, r0
        mov sp, r3              @ sp is r7 less the size
        bl boom
        mov sp, r7
        pop {r4, r7, pc}
        .fnend
        .size array, .-array

        @ throws 7
        .type boom, %function
boom:   .fnstart
        .save {r4, lr}
        push {r4, lr}
        movs r0, #4
        bl __cxa_allocate_exception
        movs r1, #7
        str r1, [r0]
        ldr r1, =_ZTIi
        movs r2, #0
        bl __cxa_throw
        .fnend
        .size boom, .-boom
