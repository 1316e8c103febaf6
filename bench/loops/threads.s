# Four threads in turns: two hand a word to and fro by wait and wake, two count and yield, and ticks come between.
left:
    li s1, 0                # it waits while the word is 0, and then makes it 0
    j hands
right:
    li s1, 1
hands:
    clw a2, 0(cgp)
    bne a2, s1, mine
    cmove ca0, cgp
    mv a1, s1
    cimport ct2, wait
    cjalr cra, ct2
    j hands
mine:
    csw s1, 0(cgp)
    cmove ca0, cgp
    li a1, 1
    cimport ct2, wake
    cjalr cra, ct2
    j hands
counts:
    li tp, 16
count:
    clw a2, 8(cgp)
    addi a2, a2, 1
    csw a2, 8(cgp)
    addi tp, tp, -1
    bnez tp, count
    cimport ct2, yield
    cjalr cra, ct2
    j counts
