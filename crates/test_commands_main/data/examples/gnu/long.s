@ Products and quotients of 64 bits (the run-time ABI for Arm), each with a frame that its table describes: those of libgcc are refused.
@ A number has two registers, the low word in the first.
        .syntax unified
        .cpu cortex-m0
        .thumb
        .text

        .macro begin name
        .global \name
        .type \name, %function
\name:  .fnstart
        .endm
        .macro end name
        .fnend
        .size \name, .-\name
        .endm

        @ r1:r0 = r1:r0 * r3:r2
        begin __aeabi_lmul
        .save {r4-r6, lr}
        push {r4-r6, lr}
        muls r1, r2             @ the high word has the low words of both cross products
        muls r3, r0
        adds r1, r1, r3
        uxth r3, r0             @ and the low words are multiplied by halves
        uxth r4, r2
        lsrs r5, r0, #16
        lsrs r6, r2, #16
        movs r0, r3
        muls r0, r4
        muls r3, r6
        muls r4, r5
        muls r5, r6
        adds r1, r1, r5
        movs r6, #0
        lsrs r5, r3, #16
        adds r1, r1, r5
        lsls r3, r3, #16
        adds r0, r0, r3
        adcs r1, r6
        lsrs r5, r4, #16
        adds r1, r1, r5
        lsls r4, r4, #16
        adds r0, r0, r4
        adcs r1, r6
        pop {r4-r6, pc}
        end __aeabi_lmul

        @ r1:r0 = r1:r0 / r3:r2 and r3:r2 the rest, without signs: 64 times a bit of the dividend goes into the rest. By 0 all bits of the quotient are 1.
        begin __aeabi_uldivmod
        .save {r4-r7, lr}
        push {r4-r7, lr}
        movs r4, #0             @ r5:r4 is the rest
        movs r5, #0
        movs r6, #64
1:      adds r0, r0, r0         @ the top bit of the dividend goes out, and a bit of the quotient comes in below
        adcs r1, r1
        adcs r4, r4
        adcs r5, r5
        bcs 2f                  @ a rest of 65 bits is above the divisor
        cmp r5, r3
        bhi 2f
        bcc 3f
        cmp r4, r2
        bcc 3f
2:      subs r4, r4, r2
        sbcs r5, r3
        adds r0, r0, #1
3:      subs r6, r6, #1
        bne 1b
        movs r2, r4
        movs r3, r5
        pop {r4-r7, pc}
        end __aeabi_uldivmod

        @ the same with signs: the rest has that of the dividend
        begin __aeabi_ldivmod
        .save {r4-r6, lr}
        push {r4-r6, lr}
        asrs r4, r1, #31
        asrs r5, r3, #31
        eors r0, r4
        eors r1, r4
        subs r0, r0, r4
        sbcs r1, r4
        eors r2, r5
        eors r3, r5
        subs r2, r2, r5
        sbcs r3, r5
        eors r5, r4
        bl __aeabi_uldivmod
        eors r0, r5
        eors r1, r5
        subs r0, r0, r5
        sbcs r1, r5
        eors r2, r4
        eors r3, r4
        subs r2, r2, r4
        sbcs r3, r4
        pop {r4-r6, pc}
        end __aeabi_ldivmod
