; A store without a guard, over and over: `retos insert` puts a guard before it.
        .app 16 1
        .entry start
start:  MOV R7,0(R6)
        JMP start
