@ main begins at 8000, starts w, and calls d, which begins at 800C and calls itself without end. w begins at 8014 and goes round at 8016.
.global main
.type main, %function
main: .fnstart
.save {r4, lr}
push {r4, lr}
ldr r0, =w
svc #32
bl d
pop {r4, pc}
.fnend
.type d, %function
d: .fnstart
.save {r4, lr}
push {r4, lr}
bl d
pop {r4, pc}
.fnend
.type w, %function
w: .fnstart
.save {r4, lr}
push {r4, lr}
.Lw: b .Lw
.fnend
