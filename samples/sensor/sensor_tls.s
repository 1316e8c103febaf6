# Hides a byte, in an object of its quota, and has the network send it.
wrap:
    cincaddrimm csp, csp, -16
    csc cra, 8(csp)
    cmove cs1, ca0          # the byte; a call keeps cs0 and cs1
    cimport ca0, q
    li a1, 16
    cimport ct2, allocate
    cjalr cra, ct2
    cgettag a1, ca0
    beqz a1, back           # no memory: the answer is the service's
    cmove cs0, ca0
    li a1, 0x5a             # the key of this sample
    xor a1, s1, a1
    csw a1, 0(cs0)
    clw a0, 0(cs0)
    cimport ct1, send
    cimport ct2, switch
    cjalr cra, ct2
    csw a0, 8(cs0)          # the answer of the network
    cmove cs1, ca0
    cimport ca0, q
    cmove ca1, cs0
    cimport ct2, free
    cjalr cra, ct2
    cmove ca0, cs1
back:
    clc cra, 8(csp)
    cincaddrimm csp, csp, 16
    cret
