#!/usr/bin/env python3
"""What the heap of run_rows must answer, worked out apart from it.

    heap.py OUT     writes OUT/heap, the lines under `== heap`

Written from docs/use/machine.md ("How a heap lies in memory", "How a sweep passes") and docs/use/capabilities.md (the
rounding of a length): a heap is a plain list of rows of objects, and a place is found by trying each address.
A granule is marked where it lies in the chunk of an object that was freed and hasn't left. The first lines were worked
out by hand.
"""
import sys

RAM = 0x80000000
LOW, LENGTH, LIMIT, SLOTS = 256, 32768, 12000, 32
BITS = (1 << 64) - 1

# A heap of 64 bytes with quotas of 200: an object of 40 bytes, freed, no room, swept by one slice, and room again. The
# heap of docs/use/machine.md's example with quotas of 64: two objects, the words of the heads, a full quota, a free, a
# third object behind the quarantined chunk, a size of 0, and what isn't a whole object. A heap of no bytes.
ROW = """1 2147483656 40 48
1 2147483656 40 0
NoGap
quarantined true, painted true, ended true, flushed true
64 4294967295, marked false
left 200 200 200, quarantined false
2 2147483656 40 48
1 2147485016 24 32
2 2147485048 24 64
33 1, marked false
33 2, marked false
2672 4294967295, marked false
Quota
left 0 64 64, quarantined false
1 2147485016 24 32
34 1, marked true
33 2, marked false
3 2147485080 8 48
Size
NotWhole
NotWhole
Size
begin: false
none
"""


def word(truth):
    return "true" if truth else "false"


def following(seed):
    a = seed ^ (seed << 13 & BITS)
    b = a ^ a >> 7
    return b ^ (b << 17 & BITS)


def part(seed, shift, bound):
    return (seed >> shift) % bound


class Row:
    def __init__(self, number, quota, base, length):
        self.number, self.quota, self.base, self.length = number, quota, base, length
        self.live, self.painted = True, False

    def chunk(self):
        return self.base - 8, self.base + self.length


def shape(size):
    """The rounded length of an object of a size, and what its address is a multiple of."""
    whole = -(-size // 8) * 8
    exponent = next((e for e in range(15) if -(-whole // (1 << e)) <= 511), 24)
    unit = 1 << exponent
    return -(-whole // unit) * unit, unit


class Swept:
    """A heap, the capabilities in the slots below it as the base that each has (None: untagged), and a sweep."""

    def __init__(self):
        self.low, self.high = RAM + LOW, RAM + LOW + LENGTH
        self.rows, self.next = [], 1
        self.slots = [None] * SLOTS
        self.front = None

    def charged(self, quota):
        return sum(r.length + 8 for r in self.rows if r.live and r.quota == quota)

    def place(self, length, unit):
        taken = bytearray(LENGTH // 8)
        for r in self.rows:
            low, high = r.chunk()
            for at in range(low, high, 8):
                taken[(at - self.low) // 8] = 1
        for base in range(self.low + 8, self.high, 8):
            low, high = (base - 8 - self.low) // 8, (base + length - self.low) // 8
            if base % unit == 0 and high <= len(taken) and not any(taken[low:high]):
                return base
        return None

    def told(self, r):
        return f"{r.number} {r.base} {r.length} {self.charged(r.quota)}"

    def allocate(self, quota, size):
        if size == 0 or size > LENGTH:
            return None, "Size"
        length, unit = shape(size)
        if self.charged(quota) + length + 8 > LIMIT:
            return None, "Quota"
        base = self.place(length, unit)
        if base is None:
            return None, "NoGap"
        row = Row(self.next, quota, base, length)
        self.next += 1
        self.rows.append(row)
        return row, self.told(row)

    def whole(self, base, top):
        return next((r for r in self.rows if r.live and r.base == base and r.base + r.length == top), None)

    def free(self, quota, base, top):
        row = self.whole(base, top)
        if row is None or row.quota != quota:
            return "NotWhole"
        row.live = False
        return self.told(row)

    def find(self, base, top):
        row = self.whole(base, top)
        return "none" if row is None else f"{self.told(row)} of {row.quota}"

    def quarantined(self):
        return any(not r.live for r in self.rows)

    def marked(self, at):
        return any(not r.live and r.base - 8 <= at < r.base + r.length for r in self.rows)

    def filtered(self, base):
        return None if base is not None and self.marked(base) else base

    def begin(self):
        if self.front is not None or not self.quarantined():
            return False
        for r in self.rows:
            r.painted = not r.live
        self.front = 0
        return True

    def slice(self, count):
        if self.front is None:
            return "none runs"
        end = min(self.front + 8 * count, LOW + LENGTH)
        for slot in range(SLOTS):
            if self.front <= 8 * slot < end:
                self.slots[slot] = self.filtered(self.slots[slot])
        self.front = end
        if end < LOW + LENGTH:
            return str(end)
        tagged = "".join(f" {slot}" for slot in range(SLOTS) if self.slots[slot] is not None)
        for base in self.slots:
            assert base is None or not any(r.painted and r.base == base for r in self.rows)
        self.front = None
        self.rows = [r for r in self.rows if not r.painted]
        return f"ended, tagged{tagged}, flushed true"


def some_bounds(made, seed):
    if not made:
        return 0, 0, 0
    base, length, quota = made[len(made) - 1 - (seed >> 16) % min(len(made), 24)]
    top = base + length
    off = part(seed, 48, 16)
    return base + 8 * (off == 0), top + {1: -8, 2: 8}.get(off, 0), part(seed, 8, 3) if off == 3 else quota


def call(swept, made, seed):
    kind, quota = seed % 16, part(seed, 8, 3)
    if kind == 0:
        return f"begin: {word(swept.begin())}"
    if kind < 4:
        count = part(seed, 16, 1500)
        return f"slice {count}: {swept.slice(count)}"
    if kind < 9:
        size = part(seed, 16, 9000 if kind == 4 else 1000)
        row, told = swept.allocate(quota, size)
        if row:
            made.append((row.base, row.length, quota))
            swept.slots[part(seed, 40, SLOTS)] = row.base
        return f"allocate {quota} {size}: {told}"
    if kind < 13:
        base, top, quota = some_bounds(made, seed)
        return f"free {quota} {base} {top}: {swept.free(quota, base, top)}"
    if kind == 13:
        source, target = part(seed, 16, SLOTS), part(seed, 40, SLOTS)
        swept.slots[target] = swept.filtered(swept.slots[source])
        return f"move {source} {target}: {word(swept.slots[target] is not None)}"
    if kind == 14:
        left = " ".join(str(LIMIT - swept.charged(q)) for q in range(3))
        return f"left {left}, quarantined {word(swept.quarantined())}"
    base, top, _ = some_bounds(made, seed)
    return f"find {base} {top}: {swept.find(base, top)}"


def calls(first, count):
    swept, made, seed = Swept(), [], first + 0x9E3779B97F4A7C15 & BITS
    for _ in range(count):
        seed = following(seed)
        yield call(swept, made, seed) + "\n"


if __name__ == "__main__":
    with open(sys.argv[1] + "/heap", "w") as out:
        out.write(ROW)
        for first in (1, 2, 3):
            out.writelines(calls(first, 1000))
