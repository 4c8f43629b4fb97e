@ main returns 300 divided by 7, in the second profile.
.global main
.type main, %function
main: .fnstart
.save {r4, lr}
push {r4, lr}
movw r0, #300
movs r1, #7
sdiv r0, r0, r1
pop {r4, pc}
.fnend
.section .rodata
__ehabi_profile: .word 2
