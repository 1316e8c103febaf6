# Writes a0 as four hexadecimal digits and a line feed, from an object of its own quota. Two threads come here: the
# export has interrupts off, so that no line is written into another one.
line:
    cincaddrimm csp, csp, -16
    csc cra, 8(csp)
    csw a0, 0(csp)
    cimport ca0, lines
    li a1, 8
    cimport ct2, allocate
    cjalr cra, ct2
    cgettag a1, ca0
    beqz a1, back           # the refusal is the answer
    cmove cs0, ca0
    li s1, 4
    cincaddrimm ca3, cs0, 3
fill:
    clw a0, 0(csp)
    andi a2, a0, 15
    srli a0, a0, 4
    csw a0, 0(csp)
    mv a0, a2
    cimport ct2, digit
    cjalr cra, ct2
    csb a0, 0(ca3)
    cincaddrimm ca3, ca3, -1
    addi s1, s1, -1
    bnez s1, fill
    li a0, 10
    csb a0, 4(cs0)
    cimport ct0, uart
    li a1, 5
    cmove ca3, cs0
send:
    clbu a0, 0(ca3)
    csb a0, 0(ct0)
    cincaddrimm ca3, ca3, 1
    addi a1, a1, -1
    bnez a1, send
    cimport ca0, lines
    cmove ca1, cs0
    cimport ct2, free
    cjalr cra, ct2
back:
    clc cra, 8(csp)
    cincaddrimm csp, csp, 16
    cret
