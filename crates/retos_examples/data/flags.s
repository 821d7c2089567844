; Flags before, after and by changes of memory, without guards. What is left in the region is the same with guards and
; without. At its end the program stores through the word at TOLD, which is no address of the region, so that `fault store`
; names it.
        .app 32 1
        .equ TOLD 0x2000
        .entry start
        .data
words:  .word 0x1280, 0x0001, 0xFE01, 0x8001, 0x1201, 0x1200, 0x1280, 0x80F0
        .word 0x7FFF, 0x7FFF, 0x1280, 0x8000, 0x0001, 0x0080, 0x9999, 0x1298
        .zero
kept:   .space 40
        .code
start:  MOV #words,R6
        MOV #0x8000,R7
        BIS #0x107,SR           ; V, N, Z and C are 1, and stay so
        SWPB 0(R6)
        BIC #0x00FF,0(R6)
        MOV SR,&kept
        RRC 2(R6)
        MOV SR,&kept+2
        BIS #0x107,SR
        RRC.B 4(R6)
        MOV SR,&kept+4
        BIS #0x107,SR
        RRA 6(R6)
        MOV SR,&kept+6
        BIS #0x107,SR
        RRA.B 8(R6)
        MOV SR,&kept+8
        BIS #0x107,SR
        SXT 10(R6)
        MOV SR,&kept+10
        BIC #0x107,SR
        SXT 12(R6)
        MOV SR,&kept+12
        XOR R7,14(R6)           ; both are negative: V
        MOV SR,&kept+14
        AND.B #0x0F,14(R6)
        MOV SR,&kept+16
        ADD #1,16(R6)
        MOV SR,&kept+18
        ADDC R7,18(R6)
        MOV SR,&kept+20
        ADD.B #0x80,20(R6)
        MOV SR,&kept+22
        ADDC.B #0,21(R6)
        MOV SR,&kept+24
        SUB #1,22(R6)
        MOV SR,&kept+26
        SUB #2,24(R6)
        MOV SR,&kept+28
        SUBC.B #1,26(R6)
        MOV SR,&kept+30
        CMP.B #1,26(R6)
        MOV SR,&kept+32
        BIT R7,14(R6)
        MOV SR,&kept+34
        SETC
        DADD #0,28(R6)
        BIC #0x100,SR           ; V isn't defined after a decimal sum
        MOV SR,&kept+36
        DADD.B #0x01,30(R6)
        BIC #0x100,SR
        MOV SR,&kept+38
        MOV &TOLD,R7
        MOV R7,0(R7)
stay:   JMP stay
