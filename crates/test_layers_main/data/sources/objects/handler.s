@ A function whose handler data stands behind the codes of its table (docs/rules/sources.md, "Functions").
f: .fnstart
.save {r4, lr}
push {r4, lr}
.personalityindex 0
.handlerdata
.half 2, 0
.word f(prel31), 0
.fnend
bx lr
