@ An inline entry; a table that a zero word closes; handler words without a table (docs/rules/sources.md, "Functions").
.fnstart
.save {r4, lr}
b g
.fnend
.fnstart
.save {r7, lr}
.pad #8
.setfp r7, sp, #0
beq g
.fnend
.fnstart
.handlerdata
.word 5
.cantunwind
.fnend
