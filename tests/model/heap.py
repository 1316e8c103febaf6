"""The plain machine of machine.py with the heap: routines 6 to 12, and slices of the revoker."""
from model.machine import Machine, Row, cap_trap
from model.words import GLOBALS, MEMORY_ROOT, derive, integer, round_length

ALLOCATE, FREE, REMAINING, TOKEN_KEY, TOKEN_NEW, TOKEN_OPEN, TOKEN_FREE = range(6, 13)
TOKEN = 11  # the type of keys and tokens
A_KEY = 0  # in place of the number of a token's key


class HeapMachine(Machine):
    """A machine as it boots an image that the reference of images read."""

    def __init__(self, image):
        super().__init__(image)
        self.marks = [False] * len(self.g)
        self.heap, self.end = image.heap, image.ram + image.size
        self.objects, self.front = [], None
        self.areas, at = [], image.trusted + 16
        for thread in self.threads:
            self.areas.append(at)
            at += 160 + 64 * thread.most
        self.limits = {}
        for owner in image.owners:
            for n, (_, row, _) in enumerate(owner.slots):
                self.limits[owner.slot_entries[n]] = int.from_bytes(row[4:8], "little")

    # -- the load filter

    def filtered(self, cap):
        base = cap.bounds()[0]
        return cap.put(tag=False) if cap.tag and self.in_ram(base, 1) and self.marks[(base - self.ram) // 8] else cap

    def load(self, th, rd, rs1, imm, f3, gives):
        return super().load(th, rd, rs1, imm, f3, lambda to, value: gives(to, self.filtered(value)))

    def pick(self):
        t = super().pick()
        if t is not None:
            th = self.threads[t]
            th.pcc, th.regs = self.filtered(th.pcc), [self.filtered(cap) for cap in th.regs]
        return t

    def leave(self, t, first, second):
        th = self.threads[t]
        super().leave(t, first, second)
        if th.frames:
            th.pcc = self.filtered(th.pcc)
            for n in (2, 3, 8, 9):
                th.regs[n] = self.filtered(th.regs[n])

    # -- routines

    def native(self, t, number):
        if not ALLOCATE <= number <= TOKEN_FREE:
            return super().native(t, number)
        th = self.threads[t]
        c1, quota = th.regs[1], th.regs[10]
        if not c1.tag:
            raise cap_trap(2, 1)
        if c1.seal not in (4, 5):
            raise cap_trap(3, 1)
        if number == TOKEN_OPEN:
            return self.token_open(t, th.regs[10], th.regs[11])
        if not quota.tag or quota.seal != 10:
            return self.answer(t, integer(-1))
        if number == ALLOCATE:
            return self.allocate(t, quota.root, th.regs[11].address)
        if number == FREE:
            return self.free(t, quota.root, th.regs[11])
        if number == REMAINING:
            return self.answer(t, integer(self.limits[quota.root] - self.charges(quota.root)))
        if number == TOKEN_KEY:
            return self.allocate(t, quota.root, 8, A_KEY)
        if number == TOKEN_NEW:
            return self.token_new(t, quota.root, th.regs[11].address, th.regs[12])
        return self.token_free(t, quota.root, th.regs[11], th.regs[12])

    def charges(self, quota):
        return sum(r.length + 8 for r in self.objects if r.live and r.quota == quota)

    def place(self, length, alignment):
        """The least: it begins as early as it may where the heap begins, or where another object ends."""
        ends = [self.heap] + [r.base + r.length for r in self.objects]
        for base in sorted(-(-(end + 8) // alignment) * alignment for end in ends):
            if base + length <= self.end and all(base + length + 8 <= r.base or r.base + r.length + 8 <= base
                                                 for r in self.objects):
                return base
        return None

    def allocate(self, t, quota, size, key=None):
        """With a key's number the object is a token of it, with A_KEY a key: then its capability is sealed."""
        if size == 0 or size > self.end - self.heap:
            return self.answer(t, integer(-4))
        exponent, length = round_length(-(-size // 8) * 8)
        if self.charges(quota) + length + 8 > self.limits[quota]:
            return self.answer(t, integer(-2))
        base = self.place(length, max(8, 2 ** exponent))
        if base is None:
            return self.answer(t, integer(-3 if all(r.live for r in self.objects) else -5))
        self.count["allocations"] += 1
        made = Row()
        made.number, made.quota, made.base, made.length = self.count["allocations"], quota, base, length
        made.live, made.painted, made.key = True, False, key
        self.objects.append(made)
        kind = 0 if key is None else TOKEN
        self.answer(t, derive(MEMORY_ROOT, base, length, GLOBALS, base, kind, quota, made.number))
        return "allocate", quota, f"n{made.number} {base:08x} {length} {self.charges(quota)}"

    def free(self, t, quota, cap):
        found = self.whole(cap)
        if not found or cap.field or found.quota != quota:
            return self.answer(t, integer(-6))
        return self.let_go(t, found)

    def let_go(self, t, gone):
        th = self.threads[t]
        self.zero(gone.base, gone.base + gone.length)
        self.mark(gone, True)
        gone.live = False
        self.count["frees"] += 1
        th.regs = [self.filtered(cap) for cap in th.regs]
        self.answer(t, integer(0))
        return "free", gone.quota, f"n{gone.number} {gone.base:08x} {gone.length} {self.charges(gone.quota)}"

    def whole(self, cap):
        """The live object that a tagged capability is the whole of, or None."""
        bounds = cap.bounds()
        return next((r for r in self.objects if cap.tag and r.live and bounds == (r.base, r.base + r.length)), None)

    # -- keys and tokens

    def key(self, cap):
        """The number of the live key that a capability is of, or None."""
        found = self.whole(cap) if cap.seal == TOKEN else None
        return found.number if found and found.key == A_KEY else None

    def token(self, key, cap):
        """The live token of a key that a capability is of, or None."""
        found = self.whole(cap) if cap.seal == TOKEN else None
        return found if found and found.key == key else None

    def token_new(self, t, quota, size, key_cap):
        key = self.key(key_cap)
        return self.answer(t, integer(-7)) if key is None else self.allocate(t, quota, size, key)

    def token_open(self, t, key_cap, cap):
        key = self.key(key_cap)
        if key is None:
            return self.answer(t, integer(-7))
        return self.answer(t, cap.with_field(0) if self.token(key, cap) else integer(-8))

    def token_free(self, t, quota, key_cap, cap):
        key = self.key(key_cap)
        if key is None:
            return self.answer(t, integer(-7))
        found = self.token(key, cap)
        if not found:
            return self.answer(t, integer(-8))
        return self.let_go(t, found) if found.quota == quota else self.answer(t, integer(-6))

    # -- the revoker

    def mark(self, r, marked):
        for k in range((r.base - 8 - self.ram) // 8, (r.base + r.length - self.ram) // 8):
            self.marks[k] = marked

    def sweep(self):
        if self.front is None:
            if all(r.live for r in self.objects):
                return
            self.front = 0
            for r in self.objects:
                r.painted = not r.live
        low, high = self.front, min(self.front + 8 * self.i.sweep, self.size)
        inside = range(self.ram + low, self.ram + high)
        for k in range(low // 8, high // 8):
            if self.g[k].tag:
                self.g[k] = self.filtered(self.g[k])
        for t, th in enumerate(self.threads):
            self.sweep_area(t, th, inside)
        self.front = high
        if high == self.size:
            for r in self.objects:
                if r.painted:
                    self.mark(r, False)
            self.objects = [r for r in self.objects if not r.painted]
            self.front = None

    def sweep_area(self, t, th, inside):
        area = self.areas[t]
        if t != self.running:
            if area in inside:
                th.pcc = self.filtered(th.pcc)
            th.regs = [self.filtered(cap) if area + 8 * n in inside else cap for n, cap in enumerate(th.regs)]
        for n, frame in enumerate(th.frames):
            at = area + 160 + 64 * n
            if frame.saved:
                frame.saved = tuple(self.filtered(cap) if at + 8 * k in inside else cap
                                    for k, cap in enumerate(frame.saved))
