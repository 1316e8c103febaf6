# Commands, a0, with their argument, a1: 1 opens a session, 2 mixes the argument into it and has the result logged, 3
# closes it, 5 tries to read through it. Nobody may but the vault, so that traps, and the caller is answered -1.
command:
    cincaddrimm csp, csp, -16
    csc cra, 8(csp)
    csw a1, 0(csp)
    li a2, 1
    beq a0, a2, opens
    clg ca3, token
    clc ca3, 0(ca3)
    li a2, 2
    beq a0, a2, mixes
    li a2, 3
    beq a0, a2, closes
    li a2, 5
    beq a0, a2, steals
    li a0, -9
    j back
opens:
    cimport ct1, session
    cimport ct2, switch
    cjalr cra, ct2
    cgettag a1, ca0
    beqz a1, back
    clg ca1, token
    csc ca0, 0(ca1)
    li a0, 0
    j back
mixes:
    cmove ca0, ca3
    clw a1, 0(csp)
    cimport ct1, mix
    cimport ct2, switch
    cjalr cra, ct2
    blt a0, zero, back
    cimport ct1, line
    cimport ct2, switch
    cjalr cra, ct2
    j back
closes:
    cmove ca0, ca3
    cimport ct1, close
    cimport ct2, switch
    cjalr cra, ct2
    j back
steals:
    clw a0, 0(ca3)
back:
    clc cra, 8(csp)
    cincaddrimm csp, csp, 16
    cret

# The second thread: every five ticks the lamps follow the buttons, and the time is logged. Buttons 255 end it.
beat:
    cincaddrimm csp, csp, -16
    csc cra, 8(csp)
again:
    li a0, 5
    cimport ct2, sleep
    cjalr cra, ct2
    cimport ct0, pins
    clw a0, 4(ct0)
    li a1, 255
    beq a0, a1, done
    csw a0, 0(ct0)
    cimport ct0, clock
    clw a0, 0(ct0)
    cimport ct1, line
    cimport ct2, switch
    cjalr cra, ct2
    j again
done:
    clc cra, 8(csp)
    cincaddrimm csp, csp, 16
    cret
.data
.align 8
token: .zero 8
