@ main begins at 8000 and calls h at 8002. h begins at 8008, lowers sp by 4, and has its gate at 800A and unreached code from 8010 on; it
@ saves nothing, so its caller is where lr says. _start begins at 8014 and calls main at 8016.
.global main
.type main, %function
main: .fnstart
.save {r4, lr}
push {r4, lr}
bl h
pop {r4, pc}
.fnend
.type h, %function
h: .fnstart
.pad #4
sub sp, #4
svc #25
add sp, #4
bx lr
bl h
.fnend
