@ A _start in place of the stubs' one: it runs the constructors of globals, those of .init_array in their order, and then main.
        .syntax unified
        .cpu cortex-m0
        .thumb
        .text
        .global _start
        .type _start, %function
_start: .fnstart
        .save {r4, r5, r6, lr}
        push {r4, r5, r6, lr}
        ldr r4, =__init_array_start
        ldr r5, =__init_array_end
1:      cmp r4, r5
        bcs 2f
        ldr r0, [r4]
        adds r4, r4, #4
        blx r0
        b 1b
2:      bl main
        pop {r4, r5, r6, pc}
        .pool
        .fnend
        .size _start, .-_start
