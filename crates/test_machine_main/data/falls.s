@ k stands behind the call at main's end, so its return goes to its own start.
.global main
.type main, %function
main: .fnstart
.save {r4, lr}
push {r4, lr}
bl k
.fnend
.type k, %function
k: .fnstart
.save {r4, lr}
push {r4, lr}
pop {r4, pc}
.fnend
