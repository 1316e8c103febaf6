# Puts together the bytes of a capability for all of memory, and stores through it to the port of
# another compartment.
main:
    clc ct0, 0(cgp)         # eight bytes of the globals: they load without a tag
    li a0, 88
    csw a0, 16(ct0)         # the serial port stands at 0x10000010: this store traps
    cret
.data
    .word 0x10000000        # an address
    .word 0x7E3C0100        # the upper half of a capability for all of memory
