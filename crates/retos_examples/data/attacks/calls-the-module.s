; Calls function WHAT of the module with the address of its own code, and emits the code of the call.
        .app 32 1
        .equ WHAT 5
        .entry main
main:   MOV #WHAT,R12
        MOV #main,R13
        CALL #0xF022            ; module call
        CALL #0xF024            ; emit
        CALL #0xF008            ; exit
stay:   JMP stay
