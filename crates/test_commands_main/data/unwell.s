        .global main
        .type main, %function
main:   mov pc, r0
        .type other, %function
other:  mov pc, r1
