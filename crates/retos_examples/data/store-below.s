; A guarded store of a word one below the region: the guard's first test fails.
        .app 16 1
        .entry start
start:  MOV #LO-1,R6
        MOV SR,R5               ; the store guard: R4 is tested against the region
        MOV R6,R4
        ADD ##0,R4
        CMP #LO,R4
        JLO fails
        CMP #HI,R4
        JLO passes
fails:  BR #0xF000
passes: MOV R5,SR
        MOV #0,0(R4)
stay:   JMP stay
