# Writes "hi" and a newline to the standard output, and exits with 0.
#
# A call of the system takes its number in x17 and its operands in x10, x11 and x12.
# Text starts at 0x10000, and data here at 0x11000.

.func main
    addi x10,x0,1       # to the standard output
    addi x17,x0,64      # write
    lui x11,17          # from 0x11000 on
    addi x12,x0,3       # three bytes
    ecall

    addi x10,x0,0       # with the status 0
    addi x17,x0,93      # exit
    ecall
.end

.data
    .ascii "hi\n"
