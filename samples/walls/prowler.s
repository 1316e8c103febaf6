# Four ways to change what isn't its own, and one to read it, each by a thread of its own. Each ends in a trap.
past:                       # the word after its own globals: it is of the keeper's code
    csw zero, 16(cgp)
    cret
word:                       # the keeper's globals, by their address
    li a0, 0x80000110
    csw zero, 0(ca0)
    cret
code:                       # its own code, through the program counter's capability
    auipcc ca0, 0
    csw zero, 0(ca0)
    cret
stack:                      # the word after its own stack: it is of the next thread's
    csw zero, 0(csp)
    cret
peek:                       # the keeper's globals again, to learn what they hold
    li a0, 0x80000110
    clw a1, 0(ca0)
    cret
