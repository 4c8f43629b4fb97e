@ Writes a letter for each of the sixteen sources, then its input, and waits until its budget is spent.
        .global main
        .type main, %function
main:   .fnstart
        .save {r4, lr}
        push {r4, lr}
        movs r0, #'a'
        bl putchar
        bl put_b
        bl put_c
        bl put_d
        bl put_e
        bl put_f
        bl put_g
        bl put_h
        bl put_i
        bl put_j
        bl put_k
        bl put_l
        bl put_m
        bl put_n
        bl put_o
        bl put_p
.Lnext: bl getchar
        adds r1, r0, #1         @ the end of the input is -1
        beq .Lwait
        bl putchar
        b .Lnext
.Lwait: b .Lwait
        .fnend
        .size main, .-main
