; A store at WHAT: in the kernel's tables, the bitmap of marks, the code, the entries, the vectors.
        .app 16 1
        .equ WHAT 0x0200
        .entry main
main:   MOV #WHAT,R6
        MOV #1,0(R6)
stay:   JMP stay
