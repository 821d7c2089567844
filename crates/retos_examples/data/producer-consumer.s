; A producer and a consumer: two threads that share a count behind mutex 0, and wait by condition 0.
        .app 48 2
        .entry main
        .zero
count:  .space 2
        .code
main:   MOV #worker,R12         ; thread 1 begins at worker, at priority 3
        MOV #3,R13
        MOV #0,R14
        CALL #0xF00A            ; spawn
prod:   MOV #0,R12
        CALL #0xF016            ; lock
        ADD #1,&count
        MOV #0,R12
        CALL #0xF01C            ; signal
        MOV #0,R12
        CALL #0xF018            ; unlock
        MOV #2,R12
        CALL #0xF00E            ; sleep for two ticks
        JMP prod
worker: MOV #0,R12
        CALL #0xF016            ; lock
again:  CMP #0,&count
        JNE take
        MOV #0,R12
        MOV #0,R13
        CALL #0xF01A            ; wait
        JMP again
take:   SUB #1,&count
        MOV &count,R12
        CALL #0xF024            ; emit
        MOV #0,R12
        CALL #0xF018            ; unlock
        JMP worker
