@ main's push stores r3 too, which is no save.
.global main
.type main, %function
main: .fnstart
.save {r4, lr}
.pad #4
push {r3, r4, lr}
bl h
pop {r3, r4, pc}
.fnend
