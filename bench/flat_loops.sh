# Sourced: writes three loops of raw code to the folder $1, as the files count, memory and calls.
bytes() { printf "$(printf '%s' "$1" | sed 's/../\\x&/g')"; }

write_loops() {
    # subs r0, #1; b back to it
    bytes 0138fde7 >"$1/count"
    # mov r1, sp; subs r1, #8; then str r0, [r1]; ldr r2, [r1]; adds r0, #1; b back to the store
    bytes 694608390860 >"$1/memory"
    bytes 0a680130fbe7 >>"$1/memory"
    # bl to the function below; b back to it; push {r4, lr}; pop {r4, pc}
    bytes 00f001f8fce710b510bd >"$1/calls"
}
