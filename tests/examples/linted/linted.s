main:
    cincaddrimm csp, csp, -16
    csc cra, 8(csp)
    cimport ct0, uart
    mv a3, t0
    csw ct0, 0(csp)
    clg ca4, two
    clc ca5, 0(ca4)
    li a0, 65
    li a1, 66
    cimport ct1, put
    cimport ct2, switch
    cjalr cra, ct2
    clc cra, 8(csp)
    cincaddrimm csp, csp, 16
    cret
.data
one: .word 1
two: .word 2
