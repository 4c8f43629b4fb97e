@ The sections of a source, the fields that the linker fills, and the symbols (docs/rules/sources.md; IHI 0044).
.global f
.type f, %function
f: bl g
.size f, .-f
.data
d: .word f+4, 7
.byte -1
.align 2
.bss
b: .space 5
.section .rodata
.word f(prel31ref), d-d+3
