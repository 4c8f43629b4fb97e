@ main begins at 8000 and asks at 8008 six times for w, which begins at 8010 and returns what it was given, 9.
.global main
.type main, %function
main: .fnstart
.save {r4, lr}
push {r4, lr}
movs r4, #6
.La: ldr r0, =w
movs r1, #9
svc #32
subs r4, #1
bne .La
pop {r4, pc}
.fnend
.type w, %function
w: .fnstart
bx lr
.fnend
