@ The gates from 16 to 26 one behind the other, from 0x8002 on, in the scope of a cleanup, whose pad is 0x801A, and of a catch of
@ everything, whose pad is 0x801E.
.global main
.type main, %function
main: .fnstart
.save {r4, lr}
push {r4, lr}
.Lb: svc #16
svc #17
svc #18
svc #19
svc #20
svc #21
svc #22
svc #23
svc #24
svc #25
svc #26
.Le: pop {r4, pc}
.Lc: bl __cxa_end_cleanup
.Lp: bl __cxa_begin_catch
bl __cxa_end_catch
pop {r4, pc}
.personalityindex 0
.handlerdata
.half .Le-.Lb, .Lb-main
.word .Lc(prel31)
.half .Le-.Lb+1, .Lb-main
.word .Lp(prel31), 0xFFFFFFFF, 0
.fnend
