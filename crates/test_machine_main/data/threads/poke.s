@ main begins at 8000 and starts w, which begins at 800C and stores at 8010 into the word where _start saved its lr.
.global main
.type main, %function
main: .fnstart
.save {r4, lr}
push {r4, lr}
ldr r0, =w
movs r1, #5
svc #32
movs r0, #0
pop {r4, pc}
.fnend
.type w, %function
w: .fnstart
ldr r0, =0x3FFFFFFC
movs r1, #0
str r1, [r0]
bx lr
.fnend
