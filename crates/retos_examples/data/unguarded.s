; A store that no guard stands before: the checker refuses it by rule 6.
        .app 16 1
        .entry start
start:  MOV ##0,R6
        MOV R6,0(R4)
stay:   JMP stay
