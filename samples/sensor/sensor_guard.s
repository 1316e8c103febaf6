# Takes a lock with interrupts off: ca0 is its word, a0 what it held before, a1 and a2 are changed.
lock:
    clw a1, 0(ca0)
    li a2, 1
    csw a2, 0(ca0)
    mv a0, a1
    cret
