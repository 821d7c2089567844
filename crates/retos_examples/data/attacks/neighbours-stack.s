; Thread 1 overwrites the byte WHAT of the stack of thread 0, which has pushed a return address and two words there and waits.
        .app 32 2
        .equ WHAT 30
        .entry main
main:   MOV #evil,R12           ; thread 1 begins at evil, at priority 3
        MOV #3,R13
        CALL #0xF00A            ; spawn
        CALL #f
        CALL #0xF008            ; exit
stay:   JMP stay
f:      MOV #0x1111,R6
        PUSH R6
        MOV #0x2222,R6
        PUSH R6
        CALL #0xF00C            ; yield: now thread 1 runs
        POP R12
        CALL #0xF024            ; emit
        POP R12
        CALL #0xF024            ; emit
        RET                     ; a checked return
evil:   MOV #LO,R6
        MOV.B #0xFF,WHAT(R6)
        CALL #0xF008            ; exit
stay2:  JMP stay2
