@ Catches an int that g throws, and prints k. The function begins at 0x8000, its pad is 10 bytes behind.
.global main
.type main, %function
main: .fnstart
.save {r4, lr}
push {r4, lr}
.Lb: bl g
.Le: movs r0, #1
pop {r4, pc}
.Lp: bl __cxa_begin_catch
bl __cxa_end_catch
movs r0, #107
bl putchar
movs r0, #0
pop {r4, pc}
.personalityindex 0
.handlerdata
.half .Le-.Lb+1, .Lb-main
.word .Lp(prel31), _ZTIi(target2), 0
.fnend
