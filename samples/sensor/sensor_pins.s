# Reads the pins, and has what it read sent.
go:
    cmove cs0, cra
    cimport ct0, pins
    clw a0, 4(ct0)          # the last input byte
    cimport ct1, wrap
    cimport ct2, switch
    cjalr cra, ct2
    cmove cra, cs0
    cret
