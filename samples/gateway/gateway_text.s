# The digit of a number below 16, in a0. Changes a0, a1.
digit:
    li a1, 10
    blt a0, a1, below
    addi a0, a0, 39         # from 10 on a letter
below:
    addi a0, a0, 48
    cret

# The sum of the a1 bytes at ca0, modulo 256, in a0. Changes ca0, a1, a2, a3.
sum:
    li a2, 0
add:
    beqz a1, end
    clbu a3, 0(ca0)
    add a2, a2, a3
    cincaddrimm ca0, ca0, 1
    addi a1, a1, -1
    j add
end:
    andi a0, a2, 255
    cret
