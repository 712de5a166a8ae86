# Counts down from 2 to 0, twice, and exits with 28.
#
# 28 is the low six bits of 0x1001c, the address of the instruction `auipc`. Code that was moved must
# still see the address that it had at first: the status is 28 wherever the code of `work` lies.

.func main
    jal x1,work
    jal x1,work
    addi x17,x0,93      # exit with x10
    ecall
.end

.func work
    addi x5,x0,2
top:
    addi x5,x5,-1
    bne x5,x0,top       # a loop of two blocks
    auipc x6,0          # its own address, 0x1001c
    andi x10,x6,63
    ret
.end
