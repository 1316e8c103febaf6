# Behind a byte from 128 on the next one is a place in a table of 16 bytes, which nobody compares with its length.
main:
    cimport ct0, uart
    clw a0, 0(ct0)
    li a1, 128
    bltu a0, a1, done
    csw a0, 0(ct0)
    clw a0, 0(ct0)
    cincaddr ct1, cgp, a0
    clb a0, 0(ct1)
done:
    cret
