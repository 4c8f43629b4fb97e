@ main returns 7.
.global main
.type main, %function
main: .fnstart
.save {r4, lr}
push {r4, lr}
movs r0, #7
pop {r4, pc}
.fnend
