@ main returns what v, which begins at 800A, hands out: its sp, lowered by 16 from 3FFFFFE4.
.global main
.type main, %function
main: .fnstart
.save {r4, lr}
push {r4, lr}
movs r0, #16
bl v
pop {r4, pc}
.fnend
.type v, %function
v: .fnstart
.save {r4, r7, lr}
push {r4, r7, lr}
.setfp r7, sp, #0
add r7, sp, #0
mov r3, sp
subs r3, r3, r0
mov sp, r3
mov r0, sp
mov sp, r7
pop {r4, r7, pc}
.fnend
