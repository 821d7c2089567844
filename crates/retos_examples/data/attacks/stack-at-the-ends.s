; WHAT pushes, and then pops until one fails.
        .app 16 1
        .equ WHAT 6
        .entry main
main:   MOV #WHAT,R6
next:   CMP #0,R6
        JEQ down
        PUSH R6
        SUB #1,R6
        JMP next
down:   POP R7
        JMP down
