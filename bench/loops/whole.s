# Three threads in turns: each allocates, calls another compartment, stores what comes back, frees and yields.
main:
    cmove cs0, cra
again:
    cimport ca0, quota
    li a1, 40
    cimport ct2, allocate
    cjalr cra, ct2
    cgettag a2, ca0
    beqz a2, later          # there is no place until a sweep has passed
    cmove cs1, ca0
    li a0, 1
    cimport ct1, add
    cimport ct2, switch
    cjalr cra, ct2
    csw a0, 0(cs1)
    cimport ca0, quota
    cmove ca1, cs1
    cimport ct2, free
    cjalr cra, ct2
later:
    cimport ct2, yield
    cjalr cra, ct2
    j again
