@ As long as main.s, without the catch.
.global main
.type main, %function
main: .fnstart
.save {r4, lr}
push {r4, lr}
.Lb: bl g
.Le: movs r0, #1
pop {r4, pc}
nop
nop
nop
nop
nop
nop
nop
nop
nop
.fnend
