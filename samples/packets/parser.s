# Makes two digits of a byte, in an object of the heap, and has them written.
parse:
    cincaddrimm csp, csp, -16
    csc cra, 8(csp)         # the way back
    csw a0, 0(csp)          # the byte
    cimport ca0, buffer     # the quota
    li a1, 2
    cimport ct2, allocate
    cjalr cra, ct2          # ca0: the object, or a negative number
    cgettag a1, ca0
    beqz a1, done
    cmove cs0, ca0
    clw a0, 0(csp)
    srli a0, a0, 4
    cimport ct2, digit
    cjalr cra, ct2
    csb a0, 0(cs0)          # into the object
    clw a0, 0(csp)
    andi a0, a0, 15
    cimport ct2, digit
    cjalr cra, ct2
    csb a0, 1(cs0)
    clbu a0, 0(cs0)
    cimport ct1, put
    cimport ct2, switch
    cjalr cra, ct2
    clbu a0, 1(cs0)
    cimport ct1, put
    cimport ct2, switch
    cjalr cra, ct2
    cimport ca0, buffer
    cmove ca1, cs0
    cimport ct2, free
    cjalr cra, ct2
done:
    clc cra, 8(csp)
    cincaddrimm csp, csp, 16
    cret
