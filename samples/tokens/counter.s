# Keeps a count for each client behind a token, which nobody else opens.
create:                     # answers a token of a new count
    cmove cs0, cra
    clg cs1, key
    clc ca2, 0(cs1)
    cgettag a0, ca2
    bnez a0, with_key
    cimport ca0, q
    cimport ct2, token_key
    cjalr cra, ct2          # the key, once
    csc ca0, 0(cs1)
    cmove ca2, ca0
with_key:
    cimport ca0, q
    li a1, 8
    cimport ct2, token_new
    cjalr cra, ct2          # eight bytes, all zero, sealed
    cmove cra, cs0
    cret

add:                        # takes a token and a number; answers the count
    cmove cs0, cra
    mv a2, a1
    cmove ca1, ca0
    clg ca0, key
    clc ca0, 0(ca0)
    cimport ct2, token_open
    cjalr cra, ct2          # the count without its seal, or -7 or -8
    cgettag a1, ca0
    beqz a1, refused
    clw a1, 0(ca0)
    add a2, a2, a1
    csw a2, 0(ca0)
    mv a0, a2
refused:
    li a1, 0
    cmove cra, cs0
    cret

    .data
key:
    .zero 8
