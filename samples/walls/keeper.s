# Writes the word of its globals to the serial port, when all others have had their turn.
show:
    clw a0, 0(cgp)
    cimport ct0, uart
    csw a0, 0(ct0)
    cret
.data
    .word 75
