# Capabilities: loaded and stored; given bounds, rights and addresses, and asked for these; sealed and opened.
main:
    cimport cs1, key13
    li a1, 0
    li a2, 111              # all rights of globals but store local: GL LG SD LM LD MC
again:
    andi a1, a1, 1016
    cincaddr ct0, cgp, a1
    csetboundsimm ct1, ct0, 8
    candperm ct1, ct1, a2
    csc ct1, 0(ct0)
    clc ca0, 0(ct0)
    cgetlen a3, ca0
    cgetbase a4, ca0
    csetaddr ct2, cgp, a4
    ctestsubset a5, cgp, ca0
    csc ct0, 0(ca0)
    cseal ca0, ct2, cs1
    cunseal ca0, ca0, cs1
    cgettag tp, ca0
    cmove ct1, ca0
    add a1, a1, a3
    beqz tp, out
    j again
out:
    cret
