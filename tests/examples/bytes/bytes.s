# Sends each byte from 0xe0 to 0xef, and reads and writes pins: values and addresses that begin with the digit e.
main:
    cimport ct0, uart
    cimport ct1, pins
    li a0, 0xe0
    li a1, 0xf0
next:
    csb a0, 0(ct0)
    addi a0, a0, 1
    blt a0, a1, next
    li a2, 0xe9e9e9e9
    csw a2, 0(ct1)
    clw a3, 4(ct1)
    cret
