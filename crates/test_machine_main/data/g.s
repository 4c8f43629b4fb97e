@ Prints c on its way out. Behind main.s it begins at 0x801C; its pad is 8 bytes behind.
.global g
.type g, %function
g: .fnstart
.save {r4, lr}
push {r4, lr}
.Lb: bl f
.Le: pop {r4, pc}
.Lp: movs r0, #99
bl putchar
bl __cxa_end_cleanup
.personalityindex 0
.handlerdata
.half .Le-.Lb, .Lb-g
.word .Lp(prel31), 0
.fnend
