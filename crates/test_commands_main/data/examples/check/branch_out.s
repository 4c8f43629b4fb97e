@ A function ends by a branch to another one, a tail call.
@
@ $ ./ehabi_run check examples/check/branch_out.s
@ > main+2: BranchOut
@ exit status 3

        .syntax unified
        .global main
        .type main, %function
main:   movs r0, #'k'
        b putchar
