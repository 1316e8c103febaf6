# Reads the time, sleeps for three ticks, reads it again, and writes the difference to the serial port.
main:
    cmove cs0, cra
    cimport cs1, clock
    clw a2, 0(cs1)          # the low word of the time; the services leave a2 as it is
    li a0, 3
    cimport ct2, sleep
    cjalr cra, ct2
    clw a0, 0(cs1)
    sub a0, a0, a2
    cimport ct0, uart
    csb a0, 0(ct0)
    cmove cra, cs0
    cret
