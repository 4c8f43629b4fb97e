@ main starts w, which begins at 800E, with the number -16. At 8016 w would raise sp by 16.
.global main
.type main, %function
main: .fnstart
.save {r4, lr}
push {r4, lr}
ldr r0, =w
movs r1, #16
rsbs r1, r1, #0
svc #32
movs r0, #0
pop {r4, pc}
.fnend
.type w, %function
w: .fnstart
.save {r4, r7, lr}
push {r4, r7, lr}
.setfp r7, sp, #0
add r7, sp, #0
mov r3, sp
subs r3, r3, r0
mov sp, r3
mov sp, r7
pop {r4, r7, pc}
.fnend
