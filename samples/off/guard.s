# Runs with interrupts off, and leaves a sentry of its own in ct0.
crit:
    jal ct0, next           # links under interrupts off: a sentry that turns them off
next:
    cret
