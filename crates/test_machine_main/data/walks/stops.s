@ main begins at 8000, calls g at 8002, and its catch of everything leads to 800A. g begins at 800C, calls h at 800E, and its cleanup leads to
@ 8014, which calls the end of the cleanup. h begins at 8018, lowers sp by 4, and has its gate at 801A. _start begins at 8020.
.global main
.type main, %function
main: .fnstart
.save {r4, lr}
push {r4, lr}
.Lb: bl g
.Le: movs r0, #0
pop {r4, pc}
.Lp: b .Lp
.personalityindex 0
.handlerdata
.half .Le-.Lb+1, .Lb-main
.word .Lp(prel31), 0xFFFFFFFF, 0
.fnend
.type g, %function
g: .fnstart
.save {r4, lr}
push {r4, lr}
.Lc: bl h
.Ld: pop {r4, pc}
.Lq: bl __cxa_end_cleanup
.personalityindex 0
.handlerdata
.half .Ld-.Lc, .Lc-g
.word .Lq(prel31), 0
.fnend
.type h, %function
h: .fnstart
.pad #4
sub sp, #4
svc #25
add sp, #4
bx lr
.fnend
