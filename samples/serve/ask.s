# Has two bytes written by another compartment, one call each.
main:
    cmove cs0, cra          # the way back, which a call overwrites
    li a0, 104
    cimport ct1, put        # the export to be called
    cimport ct2, switch
    cjalr cra, ct2          # calls it
    li a0, 105
    cimport ct1, put
    cimport ct2, switch
    cjalr cra, ct2
    cmove cra, cs0
    cret                    # the thread ends
