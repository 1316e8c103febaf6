# Calls the library, and takes for its own return what the library's function linked.
main:
    cimport ct2, crit
    cjalr cra, ct2          # through a sentry that turns interrupts off
    cmove cra, ct0          # the sentry that the library's jump linked
    cret                    # turns them off again, whenever it is used
