@ The directives name a frame pointer that the function never sets.
@
@ $ ./ehabi_run check examples/check/frame_pointer_lost.s
@ > main+2: FramePointerLost r7
@ exit status 3

        .syntax unified
        .global main
        .type main, %function
main:   .fnstart
        .save {r7, lr}
        push {r7, lr}
        .setfp r7, sp, #0
        bl getchar
        pop {r7, pc}
        .fnend
