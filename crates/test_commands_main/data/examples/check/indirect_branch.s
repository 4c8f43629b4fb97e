@ A branch through a table of addresses, as compilers write it for a switch.
@
@ $ ./ehabi_run check examples/check/indirect_branch.s
@ > main+6: IndirectBranch
@ exit status 3

        .syntax unified
        .global main
        .type main, %function
main:   lsls r0, r0, #2
        adr r1, .Lcases
        ldr r1, [r1, r0]
        mov pc, r1
        .align 2
.Lcases: .word .Lzero, .Lone
.Lzero: movs r0, #48
        bx lr
.Lone:  movs r0, #49
        bx lr
