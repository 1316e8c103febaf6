# The network: takes frames from the port, a length and then so many bytes, into the shared object; has each parsed, and
# answers 6 (done) or 21 (not done). A length of 0 ends the thread.
main:
    cincaddrimm csp, csp, -16
    csc cra, 8(csp)
    cimport cs1, eth
next:
    cjal cra, get
    beqz a0, over
    li a1, 32
    bltu a1, a0, bad        # longer than the buffer: its bytes are taken for lengths
    cimport cs0, frame
    csw a0, 0(cs0)
    cincaddrimm cs0, cs0, 4
more:
    csw a0, 0(csp)          # how many bytes are still to come
    cjal cra, get
    csb a0, 0(cs0)
    cincaddrimm cs0, cs0, 1
    clw a0, 0(csp)
    addi a0, a0, -1
    bnez a0, more
    cimport ct1, parse
    cimport ct2, switch
    cjalr cra, ct2
    li a1, 6
    bge a0, zero, answer    # a negative answer is a refusal, whoever gave it
bad:
    li a1, 21
answer:
    csw a1, 0(cs1)
    j next
over:
    clc cra, 8(csp)
    cincaddrimm csp, csp, 16
    cret

# A byte of the port in a0; sleeps while there is none. Changes a0, a1, ct2.
get:
    cincaddrimm csp, csp, -16
    csc cra, 8(csp)
poll:
    clw a1, 4(cs1)
    bnez a1, take
    li a0, 1
    cimport ct2, sleep
    cjalr cra, ct2
    j poll
take:
    clw a0, 0(cs1)
    clc cra, 8(csp)
    cincaddrimm csp, csp, 16
    cret
