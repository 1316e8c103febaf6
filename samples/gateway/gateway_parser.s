# Reads the frame: a command, its argument, and last the sum of all bytes before. Hands the two on to the application.
# Command 4 is 2 with a price of the table in place of the argument; nothing here looks how long the table is.
parse:
    cincaddrimm csp, csp, -16
    csc cra, 8(csp)
    cimport cs0, frame
    clw s1, 0(cs0)          # the length
    addi a1, s1, -1
    cincaddrimm ca0, cs0, 4
    cimport ct2, sum
    cjalr cra, ct2
    cincaddr ct0, cs0, s1
    clbu a1, 3(ct0)         # the last byte
    bne a0, a1, wrong
    clbu a0, 4(cs0)
    clbu a1, 5(cs0)
    li a2, 4
    bne a0, a2, hand
    clg ca2, prices
    csetboundsimm ca2, ca2, 16
    slli a1, a1, 2
    cincaddr ca2, ca2, a1
    clw a1, 0(ca2)          # past the table this traps
    li a0, 2
hand:
    cimport ct1, command
    cimport ct2, switch
    cjalr cra, ct2
    j back
wrong:
    li a0, -7
back:
    clc cra, 8(csp)
    cincaddrimm csp, csp, 16
    cret

# Whatever trapped: counts it, and answers -34.
failed:
    clg ca3, traps
    clw a4, 0(ca3)
    addi a4, a4, 1
    csw a4, 0(ca3)
    li a0, 1
    li a1, -34
    cret
.data
prices:
    .word 100
    .word 200
    .word 300
    .word 400
traps:
    .word 0
