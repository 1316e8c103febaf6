# Has a count at the counter: it holds the token, adds by it, and reads nothing through it.
main:
    cmove cs0, cra
    cimport ct1, create
    cimport ct2, switch
    cjalr cra, ct2
    cmove cs1, ca0          # the token outlives calls
    li a1, 5
    cimport ct1, add
    cimport ct2, switch
    cjalr cra, ct2
    cmove ca0, cs1
    li a1, 2
    cimport ct1, add
    cimport ct2, switch
    cjalr cra, ct2
    cimport ct0, uart
    csw a0, 0(ct0)          # 7
    cmove ca0, cgp
    cimport ct1, add
    cimport ct2, switch
    cjalr cra, ct2
    cimport ct0, uart
    csw a0, 0(ct0)          # -8: its globals are no token
    clw a0, 0(cs1)          # traps: the token is sealed
    cmove cra, cs0
    cret
