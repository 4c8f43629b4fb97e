.global main
.type main, %function
main: .fnstart
.save {r4, lr}
push {r4, lr}
.Lbmain: bl f0
.Lemain: pop {r4, pc}
.Lpmain: bl __cxa_begin_catch
bl __cxa_end_catch
movs r0, #0
pop {r4, pc}
.personalityindex 0
.handlerdata
.half .Lemain-.Lbmain+1, .Lbmain-main
.word .Lpmain(prel31), 0xFFFFFFFF, 0
.fnend
.type f0, %function
f0: .fnstart
.save {r4, lr}
push {r4, lr}
.Lbf0: bl boom
.Lef0: pop {r4, pc}
.Lpf0: bl __cxa_end_cleanup
.personalityindex 0
.handlerdata
.half .Lef0-.Lbf0, .Lbf0-f0
.word .Lpf0(prel31), 0
.fnend
.type boom, %function
boom: .fnstart
.save {r4, lr}
push {r4, lr}
movs r0, #4
bl __cxa_allocate_exception
movs r1, #7
str r1, [r0]
ldr r1, =_ZTIi
movs r2, #0
bl __cxa_throw
.fnend
