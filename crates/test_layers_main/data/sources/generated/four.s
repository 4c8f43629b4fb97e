.global main
.type main, %function
main: .fnstart
.save {r4, lr}
push {r4, lr}
.Lbmain: bl f0
.Lemain: pop {r4, pc}
.Lpmain: bl __cxa_begin_catch
bl __cxa_end_catch
movs r0, #0
pop {r4, pc}
.personalityindex 0
.handlerdata
.half .Lemain-.Lbmain+1, .Lbmain-main
.word .Lpmain(prel31), 0xFFFFFFFF, 0
.fnend
.type f0, %function
f0: .fnstart
.save {r4, lr}
push {r4, lr}
.Lbf0: bl f1
.Lef0: pop {r4, pc}
.Lpf0: bl __cxa_begin_catch
bl __cxa_end_catch
bl boom
.personalityindex 0
.handlerdata
.half .Lef0-.Lbf0+1, .Lbf0-f0
.word .Lpf0(prel31), 0xFFFFFFFF, 0
.fnend
.type f1, %function
f1: .fnstart
.save {r4, lr}
push {r4, lr}
.Lbf1: bl f2
.Lef1: pop {r4, pc}
.Lpf1: bl __cxa_begin_catch
bl __cxa_end_catch
bl boom
.personalityindex 0
.handlerdata
.half .Lef1-.Lbf1+1, .Lbf1-f1
.word .Lpf1(prel31), 0xFFFFFFFF, 0
.fnend
.type f2, %function
f2: .fnstart
.save {r4, lr}
push {r4, lr}
.Lbf2: bl f3
.Lef2: pop {r4, pc}
.Lpf2: bl __cxa_end_cleanup
.personalityindex 0
.handlerdata
.half .Lef2-.Lbf2, .Lbf2-f2
.word .Lpf2(prel31), 0
.fnend
.type f3, %function
f3: .fnstart
.save {r4, lr}
push {r4, lr}
.Lbf3: bl boom
.Lef3: pop {r4, pc}
.Lpf3: bl __cxa_begin_catch
bl __cxa_end_catch
bl boom
.personalityindex 0
.handlerdata
.half .Lef3-.Lbf3+1, .Lbf3-f3
.word .Lpf3(prel31), _ZTIi(target2), 0
.fnend
.type boom, %function
boom: .fnstart
.save {r4, lr}
push {r4, lr}
movs r0, #4
bl __cxa_allocate_exception
movs r1, #7
str r1, [r0]
ldr r1, =_ZTIi
movs r2, #0
bl __cxa_throw
.fnend
