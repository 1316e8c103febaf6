# Calls between two compartments, one after another: the callee adds to a number in its globals, and hands it back.
main:
    cmove cs0, cra
    cincaddrimm csp, csp, -16
    li a0, 0
again:
    addi a0, a0, 1
    cimport ct1, add
    cimport ct2, switch
    cjalr cra, ct2
    csw a0, 0(cgp)
    j again
