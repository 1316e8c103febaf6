# Asks the table for three words, the second of which it hasn't, and writes each answer to the serial port.
main:
    cmove cs0, cra
    li a0, 2
    cjal cra, show
    li a0, 9
    cjal cra, show
    li a0, 0
    cjal cra, show
    cmove cra, cs0
    cret

show:                       # takes a number in a0
    cmove cs1, cra
    cimport ct1, word
    cimport ct2, switch
    cjalr cra, ct2
    cimport ct0, uart
    csw a0, 0(ct0)
    cmove cra, cs1
    cret
