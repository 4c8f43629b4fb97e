@ Throws an int of 7.
.global f
.type f, %function
f: .fnstart
.save {r4, lr}
push {r4, lr}
movs r0, #4
bl __cxa_allocate_exception
movs r1, #7
str r1, [r0]
ldr r1, =_ZTIi
movs r2, #0
bl __cxa_throw
.fnend
