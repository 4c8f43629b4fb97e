@ Writes a text from read-only data, byte by byte.
@
@ $ ./ehabi_run run examples/hello.s 1000
@ > Hello, world
@ >
@ > -- trace
@ > -- exit 0
@ exit status 0

        .syntax unified
        .global main
        .type main, %function
main:   .fnstart
        .save {r4, lr}
        push {r4, lr}
        ldr r4, =text
.Lnext: ldrb r0, [r4]
        cmp r0, #0
        beq .Ldone
        bl putchar
        adds r4, #1
        b .Lnext
.Ldone: movs r0, #0
        pop {r4, pc}
        .fnend
        .size main, .-main

        .section .rodata
text:   .asciz "Hello, world\n"
