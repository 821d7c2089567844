; Stores, changes of memory and the stack, without guards. What is left in the region is the same with guards and without.
; At its end the program stores through the word at TOLD, which is no address of the region, so that `fault store` names it.
        .app 32 1
        .equ TOLD 0x2000
        .entry start
        .data
from:   .word 0x1234, 0x89AB, 0x7FFE
        .byte 0x80, 0x7F, 5, -1
place:  .word seen
seen:   .word 0xA5A5, 0xA5A5, 0xA5A5, 0xA5A5, 0xA5A5, 0xA5A5, 0xA5A5, 0xA5A5
        .zero
kept:   .space 18
        .code
start:  MOV &place,R6           ; stores through a register with an index
        MOV #0x1234,0(R6)
        MOV.B #0xAB,2(R6)
        MOV.B 1(R6),3(R6)
        MOV #from,R7            ; autoincrement: words, then bytes
        MOV #4,R9
sum:    ADD @R7+,R8
        ADC R10
        DECD R9
        JGE sum
        MOV R8,seen+6(R9)       ; the index is a label, and R9 is -2
        XOR.B @R7+,2(R6)
        MOV.B @R7+,R12
        ADD.B @R7+,R12
        MOV SR,6(R6)
        BIC.B @R7+,-1(R6)       ; the upper byte of place
        MOV R8,&seen+8          ; static data, which need no guard
        XOR.B R12,&seen+9
        SWPB &seen+8
        MOV #LO+22,R11          ; an address from LO
        MOV R12,0(R11)
        SXT @R11
        MOV.B R8,&0x2018        ; addresses without a relocation
        RRC.B &0x2018
        SUB R12,&0x201A
        RRC 0(R6)               ; changes of memory
        ADD.B #0x7F,3(R6)
        ADDC R12,4(R6)
        RRA 4(R6)
        RRA.B 3(R6)
        SWPB 0(R6)
        AND #0x7BFB,4(R6)
        BIS #0x0440,0(R6)
        BIC #0x0802,seen+4(R9)
        PUSH R8                 ; the stack
        PUSH #0x7FF1
        PUSH 2(R6)
        PUSH @R6
        PUSH.B R12              ; on a word that is 0
        POP R13
        ADD @SP+,R13            ; pops by way of R4
        CMP @SP+,R13
        MOV SR,&kept
        MOV.B @SP+,R14
        MOV #LO+72,SP           ; whatever the pop of a byte adds to SP
        SUB #6,SP               ; a frame, and stores through SP
        MOV R13,8(SP)
        RRA 8(SP)
        XOR.B R13,1(SP)
        ADD #6,SP
        BIT @SP+,0(R6)
        MOV SR,&kept+2
        SUBC @SP+,R14
        MOV SR,&kept+4
        ADD #2,SP
        MOV SP,R15              ; the registers
        SUB #LO,R15
        MOV R8,&kept+6
        MOV R10,&kept+8
        MOV R12,&kept+10
        MOV R13,&kept+12
        MOV R14,&kept+14
        MOV R15,&kept+16
        MOV &TOLD,R7
        MOV R7,0(R7)
stay:   JMP stay
