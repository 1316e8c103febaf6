# Keeps a number for each session: in a token, which nobody reads or writes through but by this key.
session:
    cmove cs0, cra
    clg cs1, key
    clc ca2, 0(cs1)
    cgettag a0, ca2
    bnez a0, has            # the key is made once
    cimport ca0, sessions
    cimport ct2, token_key
    cjalr cra, ct2
    cgettag a1, ca0
    beqz a1, out
    csc ca0, 0(cs1)
    cmove ca2, ca0
has:
    cimport ca0, sessions
    li a1, 8
    cimport ct2, token_new
    cjalr cra, ct2
out:
    cmove cra, cs0
    cret

# Mixes a1 into the number of the session ca0, and answers what it is now.
mix:
    cmove cs0, cra
    mv a2, a1
    cmove ca1, ca0
    clg ca0, key
    clc ca0, 0(ca0)
    cimport ct2, token_open
    cjalr cra, ct2
    cgettag a1, ca0
    beqz a1, out
    clw a1, 0(ca0)
    li a3, 31
    mul a1, a1, a3
    add a1, a1, a2
    slli a1, a1, 1
    srli a1, a1, 1          # never negative
    csw a1, 0(ca0)
    mv a0, a1
    j out

# Ends the session ca0.
close:
    cmove cs0, cra
    cmove ca2, ca0
    cimport ca0, sessions
    clg ca1, key
    clc ca1, 0(ca1)
    cimport ct2, token_free
    cjalr cra, ct2
    j out
.data
.align 8
key: .zero 8
