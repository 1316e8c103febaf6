# Allocations and frees: eight objects live, and in each turn the oldest of them is freed for one of another size.
main:
    cmove cs0, cra
    li s1, 0                # eight times the number of the turn, modulo 64
again:
    clw tp, 64(cgp)         # a generator of numbers
    li a2, 1103515245
    mul tp, tp, a2
    addi tp, tp, 1237
    csw tp, 64(cgp)
    srli a1, tp, 22
    addi a1, a1, 1          # 1 to 1,024 bytes
    cimport ca0, quota
    cimport ct2, allocate
    cjalr cra, ct2
    cgettag a2, ca0
    beqz a2, refused
    csw tp, 0(ca0)
    cincaddr ct0, cgp, s1
    clc ca1, 0(ct0)
    csc ca0, 0(ct0)
    addi s1, s1, 8
    andi s1, s1, 63
    cgettag a2, ca1
    beqz a2, again
    cimport ca0, quota
    cimport ct2, free
    cjalr cra, ct2
    j again
refused:
    cmove cra, cs0
    cret
