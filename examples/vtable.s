# Calls a function twice through a table of functions in data, and exits with 10.
#
# C++ compilers lay such a table out for each class with virtual functions. `.slot` is one place
# in it: the address of a function, with the relocation by which a mover of code finds the place.

.func main
    lui x8,17           # the table is at 0x11000
    ld x5,0(x8)         # its first function
    jalr x1,0(x5)
    ld x5,0(x8)
    jalr x1,0(x5)
    addi x17,x0,93      # exit with x10
    ecall
.end

.func f
    addi x10,x10,5
    ret
.end

.data
.object _ZTV1F          # the table of the class F, as C++ names it
    .slot f
.endobject
