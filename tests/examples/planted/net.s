# Reads the pins, keeps what they say in an object of the heap, and has it logged.
poll:
    cincaddrimm csp, csp, -16
    csc cra, 8(csp)         # the way back
    cimport ct0, nic
    clw a1, 4(ct0)
    clg ct1, last
    csw a1, 0(ct1)
    cimport ca0, heap
    li a1, 24
    cimport ct2, allocate
    cjalr cra, ct2          # ca0: the object
    csc ca0, 0(csp)
    clg ct1, last
    clw a0, 0(ct1)
    beqz a0, quiet
    cimport ct1, put
    cimport ct2, switch
    cjalr cra, ct2
quiet:
    clc ca1, 0(csp)
    cimport ca0, heap
    cimport ct2, free
    cjalr cra, ct2
    clc cra, 8(csp)
    cincaddrimm csp, csp, 16
    cret

.data
last:
    .word 0
