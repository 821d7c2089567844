; Jumps taken and not taken, with guards between a test and its jumps, decimal sums, and calls whose return address is
; popped, without guards. What is left in the region is the same with guards and without. At its end the program stores
; through the word at TOLD, which is no address of the region, so that `fault store` names it.
        .app 32 1
        .equ TOLD 0x2000
        .entry start
        .data
pairs:  .word 5, 5, 1, 2, 0x8000, 1, 0x7FFF, -1, -1, 1, 1, -2
        .zero
passed: .space 12
sums:   .space 8
kept:   .space 12
        .code
start:  MOV #pairs,R7
        MOV #passed,R6
        MOV #6,R11
each:   MOV #0,R9
        MOV @R7+,R8
        CMP @R7+,R8             ; up to JL nothing changes the flags; a bit of R9 says that a jump isn't taken
        PUSH R8
        JNE ne
        BIS #0x01,R9
ne:     MOV R9,0(R6)
        JEQ eq
        BIS #0x02,R9
eq:     POP R10
        JNC nc
        BIS #0x04,R9
nc:     MOV SP,SP
        JC c
        BIS #0x08,R9
c:      JN n
        BIS #0x10,R9
n:      JGE ge
        BIS #0x20,R9
ge:     JL l
        BIS #0x40,R9
l:      BIS R9,0(R6)
        INCD R6
        DEC R11
        JNE each                ; back, taken five times
        MOV #0x4567,R13         ; decimal sums; V isn't defined after them
        MOV #0x0950,0(R6)
        SETC
        DADD R13,0(R6)
        DADD #0x5545,R13
        DADC 2(R6)
        DADD.B #0x99,R13
        MOV SR,R12
        BIC #0x100,R12
        MOV R12,4(R6)
        MOV #back,R14
        CALL #pops
back:   MOV SR,&kept
        CALL #drops
past:   MOV SR,&kept+2
        PUSH #0x5AA5            ; over the return address
        ADD @SP+,R10
        MOV R10,&kept+4
        MOV R13,&kept+6
        MOV R14,&kept+8
        MOV R15,&kept+10
        MOV &TOLD,R7
        MOV R7,0(R7)
stay:   JMP stay
pops:   CMP @SP+,R14            ; the return address, by way of R4
        JEQ back
        MOV #1,R15
        JMP back
drops:  POP R14
        SUB #past,R14
        JMP past
