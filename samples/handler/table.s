# A table of four words. A load past it traps, and the error handler answers in its place.
word:                       # takes a number; answers the word that has it
    clg ca1, words
    csetboundsimm ca1, ca1, 16
    slli a0, a0, 2
    cincaddr ca1, ca1, a0
    clw a0, 0(ca1)          # the first check that fails is that of the bounds
    li a1, 0
    cret

handler:                    # a0, a1 and a2 have cause, code and register of the trap
    clg ca3, traps
    clw a4, 0(ca3)
    addi a4, a4, 1
    csw a4, 0(ca3)
    li a0, 1                # the answer is in a1
    li a1, -34
    cret

    .data
words:
    .word 10
    .word 20
    .word 30
    .word 40
traps:
    .word 0
