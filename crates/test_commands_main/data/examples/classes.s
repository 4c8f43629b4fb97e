@ A class D has the bases B1 and B2, which share the virtual base A. A thrown D is caught as an A, whose place the vtables tell: 8 bytes into
@ the object. A thrown `D*` is caught as a `const A*`: the handler is given the place of a pointer that leads to the A.
@
@ $ ./ehabi_run run examples/classes.s 1000
@ > AB
@ > -- trace
@ > throw 38000080 1D d0800000dc80000041000000
@ > catch by_value+8 sp 3FFFFFE8 object 38000088
@ > throw 38000080 P1D dc800000
@ > catch by_pointer+8 sp 3FFFFFE8 object 38000054
@ > -- exit 0
@ exit status 0

        .syntax unified
        .global main
        .type main, %function
main:   .fnstart
        .save {r4, lr}
        push {r4, lr}
        bl by_value
        bl by_pointer
        movs r0, #0
        pop {r4, pc}
        .fnend
        .size main, .-main

        .type by_value, %function
by_value: .fnstart
        .save {r4, lr}
        push {r4, lr}
.Ltry_v: bl throw_d
.Lend_v: pop {r4, pc}
.Lcatch_v: bl __cxa_begin_catch
        ldr r0, [r0]            @ the first word of the A in the D
        bl putchar
        bl __cxa_end_catch
        pop {r4, pc}
        .personalityindex 0
        .handlerdata
        .short .Lend_v-.Ltry_v+1, .Ltry_v-by_value
        .word .Lcatch_v(prel31), _ZTI1A(target2), 0
        .fnend
        .size by_value, .-by_value

        .type throw_d, %function
throw_d: .fnstart
        .save {r4, lr}
        push {r4, lr}
        movs r0, #12
        bl __cxa_allocate_exception
        ldr r1, =in_b1
        str r1, [r0]            @ B1
        ldr r1, =in_b2
        str r1, [r0, #4]        @ B2
        movs r1, #'A'
        str r1, [r0, #8]        @ A
        ldr r1, =_ZTI1D
        movs r2, #0
        bl __cxa_throw
        .fnend
        .size throw_d, .-throw_d

        .type by_pointer, %function
by_pointer: .fnstart
        .save {r4, lr}
        push {r4, lr}
.Ltry_p: bl throw_p
.Lend_p: pop {r4, pc}
.Lcatch_p: bl __cxa_begin_catch
        ldr r0, [r0]            @ the pointer
        ldr r0, [r0]            @ the first word of the A that it leads to
        bl putchar
        bl __cxa_end_catch
        pop {r4, pc}
        .personalityindex 0
        .handlerdata
        .short .Lend_p-.Ltry_p+1, .Ltry_p-by_pointer
        .word .Lcatch_p(prel31), _ZTIPK1A(target2), 0
        .fnend
        .size by_pointer, .-by_pointer

        .type throw_p, %function
throw_p: .fnstart
        .save {r4, lr}
        push {r4, lr}
        movs r0, #4
        bl __cxa_allocate_exception
        ldr r1, =thing
        str r1, [r0]
        ldr r1, =_ZTIP1D
        movs r2, #0
        bl __cxa_throw
        .fnend
        .size throw_p, .-throw_p

        .section .rodata
        .word 8, 0, _ZTI1D      @ from the B1 of a D its A lies 8 bytes on
in_b1:  .word 4, -4, _ZTI1D     @ from the B2 of a D its A lies 4 bytes on
in_b2:
thing:  .word in_b1, in_b2, 'B'

_ZTI1A: .word _ZTVN10__cxxabiv117__class_type_infoE+8, .Lname_a
        @ one base: virtual (1), public (2), its offset stands 12 bytes below where the vtable pointer leads (-12 in the bits from 8 on)
_ZTI2B1: .word _ZTVN10__cxxabiv121__vmi_class_type_infoE+8, .Lname_b1, 0, 1, _ZTI1A, 0xFFFFF403
_ZTI2B2: .word _ZTVN10__cxxabiv121__vmi_class_type_infoE+8, .Lname_b2, 0, 1, _ZTI1A, 0xFFFFF403
        @ two public bases, at 0 and at 4
_ZTI1D: .word _ZTVN10__cxxabiv121__vmi_class_type_infoE+8, .Lname_d, 2, 2, _ZTI2B1, 0x002, _ZTI2B2, 0x402
_ZTIP1D: .word _ZTVN10__cxxabiv119__pointer_type_infoE+8, .Lname_pd, 0, _ZTI1D
_ZTIPK1A: .word _ZTVN10__cxxabiv119__pointer_type_infoE+8, .Lname_pka, 1, _ZTI1A
.Lname_a: .asciz "1A"
.Lname_b1: .asciz "2B1"
.Lname_b2: .asciz "2B2"
.Lname_d: .asciz "1D"
.Lname_pd: .asciz "P1D"
.Lname_pka: .asciz "PK1A"
