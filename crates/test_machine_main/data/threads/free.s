@ main begins at 8000 and allocates an object, which it gives to w. w begins at 8012 and frees it at 8014.
.global main
.type main, %function
main: .fnstart
.save {r4, lr}
push {r4, lr}
movs r0, #4
bl __cxa_allocate_exception
movs r1, r0
ldr r0, =w
svc #32
movs r0, #0
pop {r4, pc}
.fnend
.type w, %function
w: .fnstart
.save {r4, lr}
push {r4, lr}
svc #17
pop {r4, pc}
.fnend
