# Writes a byte to the serial port.
put:
    cimport ct0, port
    csb a0, 0(ct0)
    cret
serve:
    cret
