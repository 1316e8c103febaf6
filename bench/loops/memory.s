# Loads and stores of one, two and four bytes: each word of a kilobyte of globals is changed, one after another.
main:
    cmove ct0, cgp
    li a1, 256
word:
    lw a0, 0(ct0)
    addi a0, a0, 259
    sw a0, 0(ct0)
    lbu a2, 1(ct0)
    lb a3, 3(ct0)
    add a2, a2, a3
    sb a2, 2(ct0)
    lhu a4, 0(ct0)
    lh a5, 2(ct0)
    xor a4, a4, a5
    sh a4, 2(ct0)
    cincaddrimm ct0, ct0, 4
    addi a1, a1, -1
    bnez a1, word
    j main
