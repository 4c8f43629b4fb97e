@ main begins at 8000 and takes r4 exceptions, 64 as r4 is set at 8002; then it calls h at 800E, and its catch of everything leads to 8014.
@ h begins at 8016, with its gate.
.global main
.type main, %function
main: .fnstart
.save {r4, lr}
push {r4, lr}
movs r4, #64
.La: movs r0, #4
bl __cxa_allocate_exception
subs r4, #1
bne .La
.Lb: bl h
.Le: pop {r4, pc}
.Lp: b .Lp
.personalityindex 0
.handlerdata
.half .Le-.Lb+1, .Lb-main
.word .Lp(prel31), 0xFFFFFFFF, 0
.fnend
.type h, %function
h: .fnstart
svc #25
bx lr
.fnend
