; The smallest application: it jumps to itself.
        .app 16 1
        .entry start
start:  JMP start
