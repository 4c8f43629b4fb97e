@ main begins at 8000 and asks at 8004 for a thread at 4.
.global main
.type main, %function
main: .fnstart
.save {r4, lr}
push {r4, lr}
movs r0, #4
svc #32
pop {r4, pc}
.fnend
