@ 385 bytes are too many.
.global main
.type main, %function
main: .fnstart
.save {r4, lr}
push {r4, lr}
ldr r0, =385
svc #16
pop {r4, pc}
.fnend
