@ h stores to a saved word of main.
.global main
.type main, %function
main: .fnstart
.save {r4, lr}
push {r4, lr}
bl h
pop {r4, pc}
.fnend
.type h, %function
h: .fnstart
mov r0, sp
movs r1, #0
strb r1, [r0, #7]
bx lr
.fnend
