@ As tower.s, but h has a catch of everything for its gate at 800A, which leads to 8010.
.global main
.type main, %function
main: .fnstart
.save {r4, lr}
push {r4, lr}
bl h
pop {r4, pc}
.fnend
.type h, %function
h: .fnstart
.pad #4
sub sp, #4
.Lb: svc #25
.Le: add sp, #4
bx lr
.Lp: b .Lp
.personalityindex 0
.handlerdata
.half .Le-.Lb+1, .Lb-h
.word .Lp(prel31), 0xFFFFFFFF, 0
.fnend
