; Stores of a byte and of a word WHAT bytes behind the region's lower end, by an index that leads around, and emits what is there.
        .app 16 1
        .equ WHAT 0
        .entry main
main:   MOV #LO,R6
        ADD #WHAT,R6
        SUB #0x9000,R6
        MOV.B #0x77,0x9000(R6)
        MOV.B 0x9000(R6),R12
        CALL #0xF024            ; emit
        MOV #0x1234,0x9000(R6)
        MOV 0x9000(R6),R12
        CALL #0xF024            ; emit
        CALL #0xF008            ; exit
stay:   JMP stay
