@ Fourteen functions that the checker refuses, each for another cause, and two that are well. Those without an unwind entry stand first, so that
@ no entry covers them.

        .syntax unified
        .type branch_out, %function
branch_out: movs r0, #'k'
        b putchar

        .type indirect_branch, %function
indirect_branch: lsls r0, r0, #2
        adr r1, .Lcases
        ldr r1, [r1, r0]
        mov pc, r1
        .align 2
.Lcases: .word .Lzero, .Lone
.Lzero: movs r0, #48
        bx lr
.Lone:  movs r0, #49
        bx lr

        .type join_depth, %function
join_depth: cmp r0, #0
        beq .Lwait
        sub sp, #8
.Lwait: b .Lwait

        .type return_state, %function
return_state: movs r4, #0
        bx lr

        .type undecodable, %function
undecodable: .short 0xBE00
        bx lr

        .global main
        .type main, %function
main:   .fnstart
        movs r0, #0
        bx lr
        .fnend

        .type bad_bytecode, %function
bad_bytecode: .fnstart
        .save {r4, lr}
        push {r4, lr}
        .save {r4}
        push {r4}
        bl getchar
        pop {r4}
        pop {r4, pc}
        .fnend

        .type bad_descriptor, %function
bad_descriptor: .fnstart
        .save {r4, lr}
        push {r4, lr}
.Lmarked: bl getchar
.Lunmarked: pop {r4, pc}
        .personalityindex 0
        .handlerdata
        .short .Lunmarked-.Lmarked+1, .Lmarked-bad_descriptor+1
        .word 0, 0
        .fnend

        .type call_not_function, %function
call_not_function: .fnstart
        .save {r4, lr}
        push {r4, lr}
        bl zero
        pop {r4, pc}
zero:   movs r0, #0
        bx lr
        .fnend

        .type call_state, %function
call_state: .fnstart
        .save {r4, lr}
        push {r4, lr}
        sub sp, #8
        bl getchar
        add sp, #8
        pop {r4, pc}
        .fnend

        .type frame_pointer_lost, %function
frame_pointer_lost: .fnstart
        .save {r7, lr}
        push {r7, lr}
        .setfp r7, sp, #0
        bl getchar
        pop {r7, pc}
        .fnend

        .type pad_depth, %function
pad_depth: .fnstart
        .save {r4, lr}
        push {r4, lr}
.Lfrom: bl getchar
.Lto:   pop {r4, pc}
        .personalityindex 0
        .handlerdata
        .short .Lto-.Lfrom, .Lfrom-pad_depth
        .word clean(prel31), 0
        .fnend

        .type clean, %function
clean:  .fnstart
        .save {r4, lr}
        push {r4, lr}
        bl __cxa_end_cleanup
        .fnend

        .type sp_write, %function
sp_write: .fnstart
        .save {r4, lr}
        push {r4, lr}
        ldr r3, =-1024
        .pad #1024
        add sp, r3
        bl getchar
        ldr r3, =1024
        add sp, r3
        pop {r4, pc}
        .fnend
        .pool

        .type split_entry, %function
split_entry: .fnstart
        .save {r4, lr}
        push {r4, lr}
        .fnend
        .fnstart
        .save {r4, lr}
        bl getchar
        pop {r4, pc}
        .fnend

        .type throw_in_leaf_scope, %function
throw_in_leaf_scope: .fnstart
.Lgate: svc #2
.Lbehind: bx lr
.Lpad:  udf #0
        .personalityindex 0
        .handlerdata
        .short .Lbehind-.Lgate+1, .Lgate-throw_in_leaf_scope
        .word .Lpad(prel31), 0xFFFFFFFF, 0
        .fnend
