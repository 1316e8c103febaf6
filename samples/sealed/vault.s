# Has the key of type 13: it opens what it is handed, and writes its first byte to the serial port.
read:
    cimport ct0, key13
    cunseal ca0, ca0, ct0
    clbu a0, 0(ca0)
    cimport ct0, uart
    csb a0, 0(ct0)
    cret
