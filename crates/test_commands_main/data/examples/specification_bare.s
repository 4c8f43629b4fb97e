@ A function that lists no type and has no landing pad for what it throws all the same. The cleanup inside it still runs; then the
@ program ends, and no landing is told.
@
@ $ ./ehabi_run run examples/specification_bare.s 1000
@ > c
@ > -- trace
@ > throw 38000080 i 07000000
@ > cleanup inner+8 sp 3FFFFFE8
@ > -- terminate Unexpected
@ exit status 4

        .syntax unified
        .global main
        .type main, %function
main:   .fnstart
        .save {r4, lr}
        push {r4, lr}
.Lfrom: bl inner
.Lto:   pop {r4, pc}
        .personalityindex 0
        .handlerdata
        .short .Lto-.Lfrom, .Lfrom-main+1
        .word 0, 0              @ no types; the end of the list
        .fnend
        .size main, .-main

        .type inner, %function
inner:  .fnstart
        .save {r4, lr}
        push {r4, lr}
.Lfrom_i: bl boom
.Lto_i: pop {r4, pc}
.Lclean: movs r0, #'c'
        bl putchar
        bl __cxa_end_cleanup
        .personalityindex 0
        .handlerdata
        .short .Lto_i-.Lfrom_i, .Lfrom_i-inner
        .word .Lclean(prel31), 0
        .fnend
        .size inner, .-inner

        @ throws 7
        .type boom, %function
boom:   .fnstart
        .save {r4, lr}
        push {r4, lr}
        movs r0, #4
        bl __cxa_allocate_exception
        movs r1, #7
        str r1, [r0]
        ldr r1, =_ZTIi
        movs r2, #0
        bl __cxa_throw
        .fnend
        .size boom, .-boom
