; The stack pointer is set to WHAT bytes behind the stack's lower end. An interrupt's four bytes have to fit below what is pushed.
        .app 16 1
        .equ WHAT 6
        .entry main
main:   MOV #LO,R6
        ADD #WHAT,R6
        MOV R6,SP
        PUSH R6
stay:   JMP stay
