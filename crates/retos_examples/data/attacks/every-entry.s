; Calls the entry WHAT with FFFF in each register, and emits R12 and R13 behind it.
        .app 32 1
        .equ WHAT 0xF00A
        .entry main
main:   MOV #-1,R6
        MOV #-1,R7
        MOV #-1,R8
        MOV #-1,R9
        MOV #-1,R10
        MOV #-1,R11
        MOV #-1,R12
        MOV #-1,R13
        MOV #-1,R14
        MOV #-1,R15
        CALL #WHAT
        MOV R13,R6
        CALL #0xF024            ; emit
        MOV R6,R12
        CALL #0xF024            ; emit
        CALL #0xF008            ; exit
stay:   JMP stay
