@ Two paths meet, and on one of them sp lies 8 bytes further down.
@
@ $ ./ehabi_run check examples/check/join_depth.s
@ > main+6: JoinDepth
@ exit status 3

        .syntax unified
        .global main
        .type main, %function
main:   cmp r0, #0
        beq .Lwait
        sub sp, #8
.Lwait: b .Lwait
