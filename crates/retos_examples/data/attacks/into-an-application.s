; A module whose functions go and write where their caller says.
        .module
        .export 5 jumps
        .export 6 stores
jumps:  BR R12
stores: MOV #1,0(R12)
        BR #0xF026              ; leave
