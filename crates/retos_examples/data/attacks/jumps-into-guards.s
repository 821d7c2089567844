; A jump through memory to the place WHAT bytes behind the first guard: of all places of a guard its first alone is a target.
        .app 16 1
        .equ WHAT 2
        .entry main
        .data
target: .word guards
        .code
main:   ADD #WHAT,&target
        BR &target
guards: MOV #1,2(R6)            ; the guard of a store
        PUSH R6                 ; that of a push
        POP R6                  ; that of a pop
        MOV R6,SP               ; that of the stack pointer
stay:   JMP stay
