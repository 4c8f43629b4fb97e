@ Its cleanup throws again.
.global g
.type g, %function
g: .fnstart
.save {r4, lr}
push {r4, lr}
.Lb: bl f
.Le: pop {r4, pc}
.Lp: bl f
bl __cxa_end_cleanup
.personalityindex 0
.handlerdata
.half .Le-.Lb, .Lb-g
.word .Lp(prel31), 0
.fnend
