@ The runtime's stubs (docs/rules/linking.md) for the GNU assembler and clang's. Each function has its .size: without it one that ends in SVC runs on into what
@ stands behind it.
        .syntax unified
        .cpu cortex-m0
        .thumb
        .text

        .macro begin name
        .global \name
        .type \name, %function
\name:  .fnstart
        .endm
        .macro end name
        .fnend
        .size \name, .-\name
        .endm

        .weak _start            @ start.s has another one
        .type _start, %function
_start: .fnstart
        .save {r4, lr}
        push {r4, lr}
        bl main
        pop {r4, pc}
        end _start

        begin __cxa_allocate_exception
        svc #16
        bx lr
        end __cxa_allocate_exception

        begin __cxa_free_exception
        svc #17
        bx lr
        end __cxa_free_exception

        begin __cxa_throw
        svc #18
        end __cxa_throw

        begin __cxa_begin_catch
        svc #19
        bx lr
        end __cxa_begin_catch

        begin __cxa_end_catch
        .save {r4, lr}
        push {r4, lr}
        svc #20
        movs r4, r0
        beq .Ldone              @ no handler was the last of its exception
        cmp r1, #0
        beq .Lfree              @ no destructor
        blx r1
.Lfree: movs r0, r4
        svc #17
.Ldone: pop {r4, pc}
        end __cxa_end_catch

        begin __cxa_rethrow
        svc #21
        end __cxa_rethrow

        begin __cxa_end_cleanup
        svc #22
        end __cxa_end_cleanup

        begin __cxa_call_unexpected
        svc #23
        end __cxa_call_unexpected

        begin _ZSt9terminatev
        svc #24
        end _ZSt9terminatev

        begin _ZSt19uncaught_exceptionsv
        svc #25
        bx lr
        end _ZSt19uncaught_exceptionsv

        begin putchar
        svc #1
        bx lr
        end putchar

        begin getchar
        svc #2
        bx lr
        end getchar

        begin exit
        svc #0
        end exit

        @ The kinds of types: a type's first word points into one of these.
        .section .rodata
        .align 2
        .macro vtable name
        .global \name
        .type \name, %object
\name:  .zero 16
        .size \name, 16
        .endm
        vtable _ZTVN10__cxxabiv123__fundamental_type_infoE
        vtable _ZTVN10__cxxabiv117__class_type_infoE
        vtable _ZTVN10__cxxabiv120__si_class_type_infoE
        vtable _ZTVN10__cxxabiv121__vmi_class_type_infoE
        vtable _ZTVN10__cxxabiv119__pointer_type_infoE

        .macro fundamental code
        .global _ZTI\code
        .type _ZTI\code, %object
_ZTI\code: .word _ZTVN10__cxxabiv123__fundamental_type_infoE+8, .Lname_\code
        .size _ZTI\code, 8
        .endm
        fundamental i
        fundamental v
.Lname_i: .asciz "i"
.Lname_v: .asciz "v"
