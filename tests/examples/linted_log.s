put:
    cimport ct0, uart
    add a0, a0, a1
    li a2, 1
    csb a2, 0(ct0)
    csb a0, 0(ct0)
    cret
