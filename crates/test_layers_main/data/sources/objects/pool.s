@ A pool behind code: the word of a `ldr` stands behind the text, at a multiple of 4 (docs/rules/sources.md, "Pools").
movs r0, #1
movs r2, #2
ldr r1, =0x1234
bx lr
