"""Capability words, by docs/use/capabilities.md: bounds, permissions, seals and the operations on them."""

GL, LG, SD, LM, SL, LD, MC, SR, EX, US, SE, U0 = (1 << n for n in range(12))
CODE, GLOBALS, STACK = GL | LG | LM | LD | MC | EX, GL | LG | SD | LM | LD | MC, LG | SD | LM | SL | LD | MC
MEMORY_ROOT, EXECUTABLE_ROOT, SEALING_ROOT = 0x7E3C0100, 0x5E3C0100, 0x4E3C0100
M32 = 0xFFFFFFFF


# ---- words

def normal(p):
    if p & (EX | LD | MC) == EX | LD | MC:
        return p & (GL | SR | LM | LG | EX | LD | MC)
    if p & (LD | MC | SD) == LD | MC | SD:
        return p & (GL | SL | LM | LG | LD | MC | SD)
    if p & (LD | MC) == LD | MC:
        return p & (GL | LM | LG | LD | MC)
    if p & (SD | MC) == SD | MC:
        return p & (GL | SD | MC)
    if p & (LD | SD):
        return p & (GL | LD | SD)
    return p & (GL | U0 | SE | US)


def pack(p):
    p = normal(p)
    b = lambda x: 1 if p & x else 0
    if p & EX:
        five = 0b01000 | b(SR) << 2 | b(LM) << 1 | b(LG)
    elif p & LD and p & MC and p & SD:
        five = 0b11000 | b(SL) << 2 | b(LM) << 1 | b(LG)
    elif p & LD and p & MC:
        five = 0b10100 | b(LM) << 1 | b(LG)
    elif p & SD and p & MC:
        five = 0b10000
    elif p & (LD | SD):
        five = 0b10000 | b(LD) << 1 | b(SD)
    else:
        five = b(U0) << 2 | b(SE) << 1 | b(US)
    return b(GL) << 5 | five


def unpack(six):
    g, five = (GL if six & 32 else 0), six & 31
    if five >> 3 == 1:
        return g | EX | LD | MC | (SR if five & 4 else 0) | (LM if five & 2 else 0) | (LG if five & 1 else 0)
    if five >> 3 == 3:
        return g | LD | MC | SD | (SL if five & 4 else 0) | (LM if five & 2 else 0) | (LG if five & 1 else 0)
    if five >> 2 == 5:
        return g | LD | MC | (LM if five & 2 else 0) | (LG if five & 1 else 0)
    if five == 16:
        return g | SD | MC
    if five >> 2 == 4:
        return g | (LD if five & 2 else 0) | (SD if five & 1 else 0)
    return g | (U0 if five & 4 else 0) | (SE if five & 2 else 0) | (US if five & 1 else 0)


def least(base, length):
    top = base + length
    for e in list(range(15)) + [24]:
        if -(-top >> e) - (base >> e) <= 511:
            break
    return e, (base >> e) << e, -(-top >> e) << e


def round_length(n):
    for e in list(range(15)) + [24]:
        if -(-n >> e) <= 511:
            return e, -(-n >> e) << e


class Cap:
    __slots__ = ("tag", "word", "root", "source")

    def __init__(self, word=0, tag=False, root=0, source=0):
        self.word, self.tag = word, tag
        self.root, self.source = (root, source) if tag else (0, 0)

    address = property(lambda c: c.word & M32)
    high = property(lambda c: c.word >> 32)

    def bounds(c):
        a, h = c.address, c.high
        e = (h >> 18) & 15
        B, T = (h >> 9) & 511, h & 511
        e = 24 if e == 15 else e
        ah, th = int((a >> e) % 512 < B), int(T < B)
        a_top = a >> (e + 9)
        base = (a_top - ah) * 2 ** (e + 9) + B * 2 ** e
        top = (a_top + th - ah) * 2 ** (e + 9) + T * 2 ** e
        return base % 2 ** 32, top % 2 ** 33

    perms = property(lambda c: unpack((c.high >> 25) & 63))
    field = property(lambda c: (c.high >> 22) & 7)

    @property
    def seal(c):
        if c.field == 0:
            return 0
        return c.field if c.perms & EX else 8 + c.field

    def put(c, high=None, address=None, tag=None):
        high = c.high if high is None else high
        address = c.address if address is None else address & M32
        return Cap(high << 32 | address, c.tag if tag is None else tag, c.root, c.source)

    def at(c, address):
        address &= M32
        new = c.put(address=address)
        return new.put(tag=c.tag and c.field == 0 and new.bounds() == c.bounds())

    def bounded(c, length, exact=False):
        e, base, top = least(c.address, min(length, 2 ** 32 - c.address))
        fields = (15 if e == 24 else e) << 18 | ((base >> e) % 512) << 9 | (top >> e) % 512
        b, t = c.bounds()
        keep = c.tag and c.field == 0 and b <= c.address and c.address + length <= t
        if exact:
            keep = keep and base == c.address and top == c.address + length
        return c.put(high=c.high & ~0x3FFFFF & M32 | fields, tag=keep)

    def with_perms(c, p, tag):
        return c.put(high=c.high & ~(63 << 25) & M32 | pack(p) << 25, tag=tag)

    def masked(c, mask):
        return c.with_perms(normal(c.perms & mask), c.tag and c.field == 0)

    def with_field(c, field, tag=None):
        return c.put(high=c.high & ~(7 << 22) & M32 | field << 22, tag=tag)

    def holds(c, at, width):
        b, t = c.bounds()
        return b <= at and at + width <= t


def integer(n):
    return Cap(n & M32)


def derive(root_word, base, length, perms, address, seal, root, source=0):
    c = Cap(root_word << 32, True, root, source).at(base).bounded(length, True).masked(perms).at(address)
    if seal:
        c = c.with_field(seal if c.perms & EX else seal - 8)
    assert c.tag, (hex(base), length)
    return c
