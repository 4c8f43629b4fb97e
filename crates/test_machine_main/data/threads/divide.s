@ main starts w, which writes the byte of 300 divided by 7, in the second profile.
.global main
.type main, %function
main: .fnstart
.save {r4, lr}
push {r4, lr}
ldr r0, =w
movs r1, #0
svc #32
movs r0, #0
pop {r4, pc}
.fnend
.type w, %function
w: .fnstart
.save {r4, lr}
push {r4, lr}
movw r0, #300
movs r1, #7
sdiv r0, r0, r1
bl putchar
movs r0, #0
pop {r4, pc}
.fnend
.section .rodata
__ehabi_profile: .word 2
