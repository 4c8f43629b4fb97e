@ g catches what it throws and throws it again, out of the handler, whose catch a cleanup ends. main catches it too. The number 85 stands
@ for its destructor. main begins at 0x8000 and g at 0x8010.
.global main
.type main, %function
main: .fnstart
.save {r4, lr}
push {r4, lr}
.Lb: bl g
.Le: pop {r4, pc}
.Lp: svc #19
svc #20
svc #20
udf #0
.personalityindex 0
.handlerdata
.half .Le-.Lb+1, .Lb-main
.word .Lp(prel31), 0xFFFFFFFF, 0
.fnend
.type g, %function
g: .fnstart
.save {r4, lr}
push {r4, lr}
movs r0, #4
svc #16
ldr r1, =_ZTIi
movs r2, #85
.Lf: svc #18
.Lt: udf #0
.Lq: svc #19
.Lr: svc #21
.Ls: udf #0
.Lz: svc #20
bl __cxa_end_cleanup
.personalityindex 0
.handlerdata
.half .Lt-.Lf+1, .Lf-g
.word .Lq(prel31), 0xFFFFFFFF
.half .Ls-.Lr, .Lr-g
.word .Lz(prel31), 0
.fnend
