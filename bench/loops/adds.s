# Adds c10 to a number of the globals, by way of the stack.
add:
    cincaddrimm csp, csp, -16
    csw a0, 0(csp)
    clw a1, 0(cgp)
    add a0, a0, a1
    csw a0, 0(cgp)
    clw a0, 0(csp)
    cret
