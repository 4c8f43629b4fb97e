@ What objects of g++ and clang name beside the stubs: personality routines, which are never run here, types of the runtime library, and the
@ helpers of the run-time ABI for Arm. Each function has a frame that its table describes.
        .syntax unified
        .cpu cortex-m0
        .thumb
        .text

        .macro begin name
        .global \name
        .type \name, %function
\name:  .fnstart
        .endm
        .macro end name
        .fnend
        .size \name, .-\name
        .endm
        .macro also name, other
        .global \other
        .thumb_set \other, \name
        .endm

        @ the name by which a table is known to be one of GNU's for C++
        begin __gxx_personality_v0
        bx lr
        end __gxx_personality_v0

        @ named by R_ARM_NONE in each object with a compact entry, so that a linker wants them
        begin __aeabi_unwind_cpp_pr0
        bx lr
        end __aeabi_unwind_cpp_pr0
        begin __aeabi_unwind_cpp_pr1
        bx lr
        end __aeabi_unwind_cpp_pr1
        begin __aeabi_unwind_cpp_pr2
        bx lr
        end __aeabi_unwind_cpp_pr2

        @ called in front of __cxa_begin_catch where a class with a copy constructor is caught by value: the object of a control block, which is
        @ word 2 of its barrier after a landing
        begin __cxa_get_exception_ptr
        ldr r0, [r0, #44]
        bx lr
        end __cxa_get_exception_ptr

        @ r0 = r0 / r1 and r1 = r0 % r1, without signs: the divisor is doubled as long as it fits, and then halved. By 0 the quotient is 0.
        begin __aeabi_uidivmod
        .save {r4, lr}
        push {r4, lr}
        movs r2, #0             @ the quotient
        movs r3, #1             @ what the divisor was multiplied by
        cmp r1, #0
        beq 5f
1:      lsrs r4, r0, #1
        cmp r1, r4
        bhi 2f
        lsls r1, r1, #1
        lsls r3, r3, #1
        b 1b
2:      cmp r0, r1
        bcc 3f
        subs r0, r0, r1
        adds r2, r2, r3
3:      lsrs r1, r1, #1
        lsrs r3, r3, #1
        bne 2b
5:      movs r1, r0
        movs r0, r2
        pop {r4, pc}
        end __aeabi_uidivmod
        also __aeabi_uidivmod, __aeabi_uidiv

        @ the same with signs: the rest has that of the dividend
        begin __aeabi_idivmod
        .save {r4, r5, r6, lr}
        push {r4, r5, r6, lr}
        asrs r4, r0, #31
        asrs r5, r1, #31
        eors r0, r4
        subs r0, r0, r4
        eors r1, r5
        subs r1, r1, r5
        eors r5, r4
        bl __aeabi_uidivmod
        eors r0, r5
        subs r0, r0, r5
        eors r1, r4
        subs r1, r1, r4
        pop {r4, r5, r6, pc}
        end __aeabi_idivmod
        also __aeabi_idivmod, __aeabi_idiv

        @ r2 bytes from r1 to r0
        begin memcpy
        .save {r4, lr}
        push {r4, lr}
        mov r12, r0
        b 2f
1:      ldrb r4, [r1]
        strb r4, [r0]
        adds r0, r0, #1
        adds r1, r1, #1
        subs r2, r2, #1
2:      cmp r2, #0
        bne 1b
        mov r0, r12
        pop {r4, pc}
        end memcpy
        also memcpy, __aeabi_memcpy
        also memcpy, __aeabi_memcpy4
        also memcpy, __aeabi_memcpy8

        @ r2 bytes of r1 at r0
        begin memset
        mov r12, r0
        b 2f
1:      strb r1, [r0]
        adds r0, r0, #1
        subs r2, r2, #1
2:      cmp r2, #0
        bne 1b
        mov r0, r12
        bx lr
        end memset

        @ r1 zeros at r0
        begin __aeabi_memclr
        movs r2, #0
        b 2f
1:      strb r2, [r0]
        adds r0, r0, #1
        subs r1, r1, #1
2:      cmp r1, #0
        bne 1b
        bx lr
        end __aeabi_memclr
        also __aeabi_memclr, __aeabi_memclr4
        also __aeabi_memclr, __aeabi_memclr8

        @ types that a C++ library has, beside int and void, which the stubs have
        .section .rodata
        .align 2
        .macro fundamental code
        .global _ZTI\code
        .type _ZTI\code, %object
_ZTI\code: .word _ZTVN10__cxxabiv123__fundamental_type_infoE+8, .Lname_\code
        .size _ZTI\code, 8
        .endm
        .macro pointer code, qualifiers, pointee
        .global _ZTI\code
        .type _ZTI\code, %object
_ZTI\code: .word _ZTVN10__cxxabiv119__pointer_type_infoE+8, .Lname_\code, \qualifiers, _ZTI\pointee
        .size _ZTI\code, 16
        .endm
        .irp code, b, c, a, h, s, t, j, l, m, x, y, Dn
        fundamental \code
        .endr
        pointer Pv, 0, v
        pointer PKv, 1, v
        pointer Pc, 0, c
        pointer PKc, 1, c
        .irp code, b, c, a, h, s, t, j, l, m, x, y, Dn, Pv, PKv, Pc, PKc
.Lname_\code: .asciz "\code"
        .endr
