# Sourced: the three loops that `run` is measured on, as sources and as raw code.

# source_text ROUNDS BODY: main, which does BODY so many times and has eight bytes of its own on the stack
source_text() {
    printf '.global main\n.type main, %%function\nmain: .fnstart\n.save {r4, lr}\n.pad #8\npush {r4, lr}\nsub sp, #8\nldr r4, =%s\n' "$1"
    printf '.Lround:\n%s\nsubs r4, #1\nbne .Lround\nadd sp, #8\nmovs r0, #0\npop {r4, pc}\n.fnend\n' "$2"
    printf '.type leaf, %%function\nleaf: .fnstart\n.save {r4, lr}\npush {r4, lr}\npop {r4, pc}\n.fnend\n'
}

# each of the loops MEASURE NAME EVENTS BODY BYTES: EVENTS events a round, and the same rounds as raw code, after sub sp, #8
each_run_loop() {
    "$@" counting 2 '' 82b0013cfdd1
    "$@" 'loads and stores' 5 $'str r4, [sp]\nldr r0, [sp]\nadds r0, #1' 82b0009400980130013cfad1
    "$@" 'calls, push and pop' 5 'bl leaf' 82b000f002f8013cfbd110b510bd
}
