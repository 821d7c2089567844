; A guarded push, over and over: the seventh finds no room in the stack of 16 bytes.
        .app 16 1
        .entry again
again:  MOV SR,R5               ; the growth guard: SP is tested against the current limit
        CMP &0x0200,SP
        JHS room
        BR #0xF002
room:   MOV R5,SR
        PUSH R6
        JMP again
