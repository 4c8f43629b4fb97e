@ Two functions with an exception specification, as `throw(int)` and `throw()` in older C++. What the first lists passes it by and is caught in
@ `main`. The second lists nothing: the throw stops there, at a landing pad that ends the program.
@
@ $ ./ehabi_run run examples/specification.s 1000
@ > i
@ > -- trace
@ > throw 38000080 i 07000000
@ > catch main+8 sp 3FFFFFF0 object 38000080
@ > throw 38000080 i 07000000
@ > unexpected nothing+8 sp 3FFFFFE8
@ > -- terminate Unexpected
@ exit status 4

        .syntax unified
        .global main
        .type main, %function
main:   .fnstart
        .save {r4, lr}
        push {r4, lr}
.Ltry:  bl numbers
.Lend:  pop {r4, pc}
.Lcatch: bl __cxa_begin_catch
        bl __cxa_end_catch
        movs r0, #'i'
        bl putchar
        bl nothing
        pop {r4, pc}
        .personalityindex 0
        .handlerdata
        .short .Lend-.Ltry+1, .Ltry-main
        .word .Lcatch(prel31), _ZTIi(target2), 0
        .fnend
        .size main, .-main

        .type numbers, %function
numbers: .fnstart
        .save {r4, lr}
        push {r4, lr}
.Lfrom_i: bl boom
.Lto_i: pop {r4, pc}
        .personalityindex 0
        .handlerdata
        .short .Lto_i-.Lfrom_i, .Lfrom_i-numbers+1       @ 1 more in the offset marks a specification
        .word 1, _ZTIi(target2), 0                      @ of one type, without a landing pad
        .fnend
        .size numbers, .-numbers

        .type nothing, %function
nothing: .fnstart
        .save {r4, lr}
        push {r4, lr}
.Lfrom_n: bl boom
.Lto_n: pop {r4, pc}
.Lpad:  bl __cxa_call_unexpected
        .personalityindex 0
        .handlerdata
        .short .Lto_n-.Lfrom_n, .Lfrom_n-nothing+1
        .word 0x80000000, .Lpad(prel31), 0              @ of no type, with a landing pad
        .fnend
        .size nothing, .-nothing

        @ throws 7
        .type boom, %function
boom:   .fnstart
        .save {r4, lr}
        push {r4, lr}
        movs r0, #4
        bl __cxa_allocate_exception
        movs r1, #7
        str r1, [r0]
        ldr r1, =_ZTIi
        movs r2, #0
        bl __cxa_throw
        .fnend
        .size boom, .-boom
