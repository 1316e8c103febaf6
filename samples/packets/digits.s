# The digit of a number below 16.
digit:
    li a1, 10
    blt a0, a1, below
    addi a0, a0, 39         # from 10 on a letter
below:
    addi a0, a0, 48
    cret
