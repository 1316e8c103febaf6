# Waits for a word in the object that both share, and writes it to the serial port.
main:
    cmove cs0, cra
    cimport ca0, box
    li a1, 0
    cimport ct2, wait
    cjalr cra, ct2          # as long as it is 0
    cimport ca0, box
    clw a0, 0(ca0)
    cimport ct0, uart
    csb a0, 0(ct0)
    cimport ca0, box
    csw zero, 0(ca0)        # traps: this import has no right to store
    cmove cra, cs0
    cret
