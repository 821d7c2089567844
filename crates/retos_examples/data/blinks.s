; Emits 0 and 1 in turn, and sleeps for a tick between them.
        .app 32 1
        .entry start
start:  MOV #0,R6
loop:   MOV R6,R12
        CALL #0xF024            ; emit
        XOR #1,R6
        MOV #1,R12
        CALL #0xF00E            ; sleep
        JMP loop
