# The driver of the serial port. Its thread writes each byte that it finds in the globals; put leaves one there, and
# returns when it is written. The word is 0 where there is none.
serve:
    clg cs0, byte
next:
    cmove ca0, cs0          # the word to wait for
    li a1, 0
    cimport ct2, wait
    cjalr cra, ct2          # as long as it is 0
    clw a0, 0(cs0)
    cimport ct0, uart
    csw a0, 0(ct0)
    csw zero, 0(cs0)
    cmove ca0, cs0
    li a1, 1
    cimport ct2, wake
    cjalr cra, ct2          # who left the byte goes on
    j next

put:
    cmove cs0, cra
    clg cs1, byte
    csw a0, 0(cs1)
    mv a2, a0               # a0 and a1 are for the services, which leave a2 as it is
    cmove ca0, cs1
    li a1, 1
    cimport ct2, wake
    cjalr cra, ct2          # the driver's thread goes on, as soon as this one stops
    cmove ca0, cs1
    mv a1, a2
    cimport ct2, wait
    cjalr cra, ct2          # as long as the byte is there
    li a0, 0
    cmove cra, cs0
    cret

.data
byte:
    .word 0
