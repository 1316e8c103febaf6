# Holds a sealed object: it hands it on, and reads nothing through it.
main:
    cmove cs0, cra
    cimport ca0, card       # sealed, of type 13
    cimport ct1, read
    cimport ct2, switch
    cjalr cra, ct2          # the vault reads it
    cimport ca0, card
    clbu a0, 0(ca0)         # traps: it is sealed
    cmove cra, cs0
    cret
