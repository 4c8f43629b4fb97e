@ What clang's code calls where a throw reaches a noexcept function. clang brings a weak one, which calls without a frame; this one has a frame, and
@ takes its place.
        .syntax unified
        .cpu cortex-m0
        .thumb
        .text
        .global __clang_call_terminate
        .type __clang_call_terminate, %function
__clang_call_terminate: .fnstart
        .save {r4, lr}
        push {r4, lr}
        bl __cxa_begin_catch
        bl _ZSt9terminatev
        udf #0
        .fnend
        .size __clang_call_terminate, .-__clang_call_terminate
