# Sets the pins, and reads them back.
main:
    cimport ct0, pins       # ct0: the capability for the pins
    li a0, 5
    csw a0, 0(ct0)          # the output register
    clw a1, 0(ct0)          # reads it back
    cret                    # the thread ends
