# Integer work: a generator of numbers by multiplication, shifts, two divisions and a branch that no pattern foretells.
main:
    li a0, 12345
    li a1, 1664525
    li a2, 1013904223
    li a3, 1000
again:
    mul a0, a0, a1
    add a0, a0, a2
    srli a4, a0, 11
    slli a5, a4, 3
    xor a4, a4, a5
    remu a5, a4, a3
    divu t0, a4, a3
    sub a4, a4, t0
    srli t1, a0, 27
    andi t1, t1, 1
    beqz t1, other
    addi s1, s1, 1
    j again
other:
    sltu t2, a4, a5
    add s1, s1, t2
    j again
