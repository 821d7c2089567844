; Thread 1 overwrites the return address of thread 0 with the place WHAT bytes behind a guard's first.
        .app 32 2
        .equ WHAT 2
        .entry main
main:   MOV #evil,R12           ; thread 1 begins at evil, at priority 3
        MOV #3,R13
        CALL #0xF00A            ; spawn
        CALL #f
stay:   JMP stay
f:      CALL #0xF00C            ; yield: now thread 1 runs
        RET                     ; a checked return, to what stands there now
evil:   MOV #LO,R6
        MOV #guard,R7
        ADD #WHAT,R7
        MOV R7,30(R6)           ; the uppermost word of thread 0's stack
        CALL #0xF00C            ; yield
stay2:  JMP stay2
guard:  PUSH R6
stay3:  JMP stay3
