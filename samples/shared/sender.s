# Leaves a word in the object that both share, and wakes who waits for it.
main:
    cmove cs0, cra
    cimport ca0, box
    li a1, 42
    csw a1, 0(ca0)
    li a1, 1
    cimport ct2, wake
    cjalr cra, ct2
    cmove cra, cs0
    cret
