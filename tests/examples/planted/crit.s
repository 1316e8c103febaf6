# Exchanges a word with interrupts off.
swap:
    clw a2, 0(ca0)
    csw a1, 0(ca0)
    mv a0, a2
    cret
