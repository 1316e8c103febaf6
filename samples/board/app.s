# Allocates an object, makes a digit by the library, and has the driver write it.
main:
    cmove cs0, cra          # the return, which the calls below overwrite
    cimport ca0, q
    li a1, 24
    cimport ct2, allocate
    cjalr cra, ct2
    li a0, 7
    cimport ct2, digit
    cjalr cra, ct2          # the library's function runs in this compartment
    cimport ct1, put
    cimport ct2, switch
    cjalr cra, ct2          # the driver's runs in its own
    cmove cra, cs0
    cret
