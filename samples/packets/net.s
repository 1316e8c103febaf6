# Takes bytes from the network's port, and hands each to the parser. A byte 0 ends it.
main:
    cmove cs0, cra          # the way back
    cimport cs1, eth        # a call keeps cs0 and cs1
next:
    clw a1, 4(cs1)          # how many bytes wait
    beqz a1, rest
    clw a0, 0(cs1)          # takes the oldest
    beqz a0, end
    cimport ct1, parse
    cimport ct2, switch
    cjalr cra, ct2
    j next
rest:
    li a0, 1
    cimport ct2, sleep
    cjalr cra, ct2          # to the next tick
    j next
end:
    cmove cra, cs0
    cret
