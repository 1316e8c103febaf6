"""Images by docs/use/image.md alone: how they are spelled, read, judged and upgraded, slowly and plainly; and two."""
import re
import struct


# ---- writing

def number(n):
    return struct.pack("<I", n)


def name(text):
    return text.encode() + bytes(32 - len(text))


def import_row(kind, rights, first, second=0):
    return bytes([kind, rights, 0, 0]) + number(first) + number(second) + number(0)


def export_row(offset, stack, args, posture, passes, entry):
    return number(offset) + number(stack) + bytes([args, posture, passes, 0]) + number(entry)


def padded(data):
    return data + bytes(-len(data) % 4)


def owner(own, title, base, length, slots, exports, text, table=0, globals_=0, size=0, initial=b""):
    out = [name(title), number(base), number(length), number(len(text))]
    if own:
        out += [number(table), number(globals_), number(size), number(len(initial))]
    out += [number(len(slots)), number(len(exports))]
    for row, title in slots + exports:
        out += [row, name(title)]
    out += [text, padded(initial) if own else b""]
    return b"".join(out)


def image(version, quantum, ram, size, trusted, heap, sweep, title, devices, shared, sealed, owners, libraries,
          threads):
    out = [b"CTFW", number(version)]
    for part in (devices, shared, sealed, owners, libraries, threads):
        out.append(number(len(part)))
    out += [number(quantum), number(ram), number(size), number(trusted), number(heap)]
    out += [number(sweep)] if version > 1 else []
    out.append(name(title))
    for n, kind, base in devices:
        out += [name(n), number(kind), number(base)]
    for n, base, length in shared:
        out += [name(n), number(base), number(length)]
    for n, base, length, kind, data in sealed:
        out += [name(n), number(base), number(length), number(kind), number(len(data)), padded(data)]
    out += owners + libraries
    for n, base, length, compartment, export, priority, frames in threads:
        out += [name(n), number(base), number(length), number(compartment), number(export), number(priority),
                number(frames)]
    return b"".join(out)


SWITCH = (import_row(1, 40, 0), "switch")
TEXT = bytes.fromhex("9702000083b282ff1305100423a0a20067800000")


def tiny():
    app = owner(True, "app", 0x80000000, 48, [SWITCH, (import_row(2, 49, 0), "uart")],
                [(export_row(0, 0, 6, 3, 1, 5), "main")], TEXT, 0x80000030, 0x80000050, 16)
    return image(1, 100, 0x80000000, 4096, 0x80000160, 0x80000290, 64, "tiny",
                 [("uart0", 1, 0x10000000)], [], [], [app], [], [("t", 0x80000060, 256, 0, 0, 1, 2)])


def large():
    """Version 2: a slot of each kind, two libraries, objects, two threads."""
    one = owner(True, "one", 0x80000000, 0x80, [
        SWITCH,
        (import_row(1, 40, 6), "allocate"),
        (import_row(2, 51, 1), "pins"),
        (import_row(3, 59, 0), "box"),
        (import_row(4, 51, 0), "secret"),
        (import_row(5, 50, 1, 0), "serve"),
        (import_row(6, 43, 1, 0), "twice"),
        (import_row(7, 50, 64), "memory"),
        (import_row(8, 35, 13), "key13"),
    ], [(export_row(0, 256, 2, 3, 2, 12), "main"), (export_row(8, 0, 6, 2, 1, 13), "handler")],
        bytes(range(16)), 0x80000080, 0x800000c0, 0x20, b"hello")
    two = owner(True, "two", 0x80000100, 0x20, [SWITCH], [(export_row(4, 512, 0, 3, 1, 17), "serve")],
                bytes(8), 0x80000120, 0x80000140, 16, b"")
    first = owner(False, "base", 0x80000150, 0x10, [], [(export_row(0, 0, 0, 1, 1, 19), "id")], bytes(4))
    second = owner(False, "lib", 0x80000160, 0x10, [(import_row(6, 43, 0, 0), "id")],
                   [(export_row(0, 0, 0, 2, 1, 22), "twice")], bytes(4))
    return image(2, 1000, 0x80000000, 8192, 0x80000500, 0x80000790, 32, "large",
                 [("uart0", 1, 0x10000000), ("pins", 3, 0x10000010)], [("box", 0x80000180, 32)],
                 [("secret", 0x800001a0, 16, 14, b"abcdef")], [one, two], [first, second],
                 [("t", 0x80000200, 256, 0, 0, 1, 4), ("u", 0x80000300, 512, 1, 0, 15, 1)])


# ---- judging

class Cut(Exception):
    pass


class Bytes:
    def __init__(self, data):
        self.data, self.at = data, 0

    def take(self, n):
        if self.at + n > len(self.data):
            raise Cut()
        self.at += n
        return self.data[self.at - n:self.at]

    def number(self):
        return struct.unpack("<I", self.take(4))[0]


class Part:
    pass


def read_owner(b, own):
    p = Part()
    p.at, p.own = b.at, own
    p.name, p.base, p.length, text = b.take(32), b.number(), b.number(), b.number()
    p.table = p.globals = p.size = 0
    initial = 0
    if own:
        p.table, p.globals, p.size, initial = b.number(), b.number(), b.number(), b.number()
    slots, exports = b.number(), b.number()
    if (slots + exports) * 48 > len(b.data):
        raise Cut()
    p.slots = [(b.at, b.take(16), b.take(32)) for _ in range(slots)]
    p.exports = [(b.at, b.take(16), b.take(32)) for _ in range(exports)]
    p.text, p.initial = b.take(text), b.take(initial)
    p.padding_at = b.at
    p.padding = b.take(-initial % 4) if own else b""
    return p


def read(data):
    b, r = Bytes(data), Part()
    b.take(4)
    r.version = b.number()
    counts = [b.number() for _ in range(6)]
    r.quantum, r.ram, r.size, r.trusted, r.heap = (b.number() for _ in range(5))
    r.sweep = b.number() if r.version > 1 else 64
    r.name_at, r.name = b.at, b.take(32)
    if sum(counts) * 20 > len(data) + 20 * 6:
        raise Cut()
    r.devices = [(b.at, b.take(32), b.number(), b.number()) for _ in range(counts[0])]
    r.shared = [(b.at, b.take(32), b.number(), b.number()) for _ in range(counts[1])]
    r.sealed = []
    for _ in range(counts[2]):
        at, title, base, length, kind, n = b.at, b.take(32), b.number(), b.number(), b.number(), b.number()
        held, padding_at = b.take(n), b.at
        r.sealed.append((at, title, base, length, kind, held, padding_at, b.take(-n % 4)))
    r.owners = [read_owner(b, True) for _ in range(counts[3])]
    r.libraries = [read_owner(b, False) for _ in range(counts[4])]
    r.threads = [(b.at, b.take(32), *(b.number() for _ in range(6))) for _ in range(counts[5])]
    if b.at != len(data):
        raise Cut()
    return r


def title(field):
    return field.split(b"\0")[0]


def is_name(t):
    return re.fullmatch(rb"[a-z][a-z0-9_]{0,31}", t) is not None


def numbers(row):
    return struct.unpack("<III", row[4:16])


def limits(r):
    """Every place at which a limit or form fails."""
    two = r.version == 2

    def names(at, field, seen, unwanted=False):
        t = title(field)
        if not is_name(t) or t in seen or unwanted:
            yield at
        if any(field[len(t):]):
            yield at + len(t)

    for place, count, most in ((8, r.devices, 16), (12, r.shared, 64), (16, r.sealed, 64), (20, r.owners, 64),
                               (24, r.libraries, 32), (28, r.threads, 64 if two else 16)):
        if len(count) > most:
            yield place
    if not 1 <= r.quantum <= 1000000:
        yield 32
    if r.ram % 16:
        yield 36
    if not 256 <= r.size <= (67108864 if two else 8388608) or r.size % 16 or r.ram + r.size > 4294967280:
        yield 40
    if two and not 1 <= r.sweep <= 65536:
        yield 52
    yield from names(r.name_at, r.name, [])
    seen = []
    for at, field, kind, _ in r.devices:
        yield from names(at, field, seen)
        if not 1 <= kind <= 3:
            yield at + 32
        seen.append(title(field))
    seen = []
    for at, field, _, length in r.shared:
        yield from names(at, field, seen)
        if not 1 <= length <= 1048576:
            yield at + 36
        seen.append(title(field))
    seen = []
    for at, field, _, length, kind, held, padding_at, padding in r.sealed:
        yield from names(at, field, seen)
        if not 1 <= length <= 1048576:
            yield at + 36
        if not 13 <= kind <= 15:
            yield at + 40
        if not 1 <= len(held) <= 1048576 or len(held) > length:
            yield at + 44
        if any(padding):
            yield padding_at
        seen.append(title(field))
    entry, owners = 1, []
    for p in r.owners + r.libraries:
        yield from names(p.at, p.name, owners)
        owners.append(title(p.name))
        if 8 * len(p.slots) + len(p.text) > p.length:
            yield p.at + 36
        if len(p.text) > 1048576 or len(p.text) % 4:
            yield p.at + 40
        if p.own:
            if not 16 <= p.size <= 1048576:
                yield p.at + 52
            if len(p.initial) > 1048576 or len(p.initial) > p.size:
                yield p.at + 56
            if not 1 <= len(p.slots) <= 148:
                yield p.at + 60
            if len(p.exports) > 64:
                yield p.at + 64
        else:
            if len(p.slots) > 128:
                yield p.at + 44
            if len(p.exports) > 64:
                yield p.at + 48
        seen = []
        for index, (at, row, field) in enumerate(p.slots):
            kind, rights, (a, b, c), t = row[0], row[1], numbers(row), title(field)
            if not 1 <= kind <= 8:
                yield at
            if rights > 63:
                yield at + 1
            if row[2] or row[3]:
                yield at + 2
            if kind == 1 and a > 12 or kind == 7 and a > 2147483647 or kind == 8 and not 13 <= a <= 15:
                yield at + 4
            if kind not in (5, 6) and b:
                yield at + 8
            if c:
                yield at + 12
            if p.own and index == 0:
                unwanted = t != b"switch"
            else:
                unwanted = kind == 8 and t != (b"key%d" % a if 13 <= a <= 15 else b"")
            yield from names(at + 16, field, seen, unwanted)
            seen.append(t)
        entry += (2 if p.own else 1) + len(p.slots)
        seen = []
        for at, row, field in p.exports:
            offset, stack = struct.unpack("<II", row[:8])
            if offset % 4 or offset >= len(p.text):
                yield at
            if stack > (32752 if p.own else 0):
                yield at + 4
            if row[8] > (6 if p.own else 0):
                yield at + 8
            if not (2 if p.own else 1) <= row[9] <= 3:
                yield at + 9
            if not 1 <= row[10] <= (2 if p.own else 1):
                yield at + 10
            if row[11]:
                yield at + 11
            if struct.unpack("<I", row[12:])[0] != entry:
                yield at + 12
            yield from names(at + 16, field, seen)
            seen.append(title(field))
            entry += 1
        if any(p.padding):
            yield p.padding_at
    for at, field, _, length, _, _, priority, frames in r.threads:
        yield from names(at, field, owners)
        owners.append(title(field))
        if not 256 <= length <= 32768:
            yield at + 36
        if priority > 15:
            yield at + 48
        if not 1 <= frames <= 96:
            yield at + 52


def least(base, top):
    """The bounds that a capability can spell, rounded outwards."""
    for e in list(range(15)) + [24]:
        unit = 1 << e
        low, high = base // unit, -(-top // unit)
        if high - low <= 511 or e == 24:
            return low * unit, high * unit


def rounded(length):
    return least(0, length)[1]


def region_length(size):
    return rounded(max(16, -(-size // 16) * 16))


def meets(a, m, b, n):
    return m > 0 and n > 0 and a < b + n and b < a + m


def regions(r):
    """Every place at which something lies where it may not."""
    trusted = region_length(16 + sum(160 + 64 * t[7] for t in r.threads))

    def laid(base, length, earlier):
        return (r.ram <= base and base + length <= r.ram + r.size and base % 16 == 0 and length % 16 == 0
                and least(base, base + length) == (base, base + length)
                and not any(meets(base, length, b, n) for b, n in earlier))

    if meets(r.ram, r.size, 0x10000, 0x1000):
        yield 36
    if not laid(r.trusted, trusted, []):
        yield 44
    if r.heap % 16 or r.heap > r.ram + r.size or r.trusted + trusted > r.heap:
        yield 48
    seen = []
    for at, _, _, base in r.devices:
        others = [(r.ram, r.size), (0x10000, 0x1000), *((other, 16) for other in seen)]
        if base % 16 or any(meets(base, 16, *other) for other in others):
            yield at + 36
        seen.append(base)
    later = [(at + 32, base, length) for at, _, base, length in r.shared]
    later += [(s[0] + 32, s[2], s[3]) for s in r.sealed]
    for p in r.owners:
        later += [(p.at + 32, p.base, p.length), (p.at + 44, p.table, region_length(16 + 16 * len(p.exports))),
                  (p.at + 48, p.globals, p.size)]
    later += [(p.at + 32, p.base, p.length) for p in r.libraries]
    later += [(t[0] + 32, t[2], t[3]) for t in r.threads]
    earlier = [(r.trusted, trusted)]
    for at, base, length in later:
        if not laid(base, length, earlier) or base + length > r.heap:
            yield at
        earlier.append((base, length))


def indexes(r):
    """Every place at which nothing is named, or slots are out of order."""

    def exports(parts, index):
        return len(parts[index].exports) if index < len(parts) else 0

    for p in r.owners + r.libraries:
        most = 0
        for index, (at, row, _) in enumerate(p.slots):
            kind, (a, b, _) = row[0], numbers(row)
            there = {2: a < len(r.devices), 3: a < len(r.shared), 4: a < len(r.sealed),
                     5: b < exports(r.owners, a), 6: b < exports(r.libraries, a)}.get(kind, True)
            group = {7: 1, 8: 2}.get(kind, 0)
            if p.own and index == 0:
                bad = not (kind == 1 and a == 0)
            else:
                bad = not there or (kind == 1 and a in (0, 1)) or group < most
            if bad:
                yield at
            most = max(most, group)
    for at, _, _, _, compartment, export, _, _ in r.threads:
        if export >= exports(r.owners, compartment):
            yield at + 40


# the packed rights of each kind: R, W, RW of a device; these and RC, WC, RWC of a shared object
SETS = {1: [40], 2: [50, 49, 51], 3: [50, 49, 51, 55, 48, 59], 4: [51], 5: [50], 6: [43], 7: [50], 8: [35]}


def rights(r):
    for p in r.owners + r.libraries:
        for at, row, _ in p.slots:
            if row[1] not in SETS[row[0]] or not p.own and row[0] != 6:
                yield at


def answer(data):
    """`ok`, or the number of the fault and its place."""
    if len(data) < 8 or data[:4] != b"CTFW" or struct.unpack("<I", data[4:8])[0] not in (1, 2):
        return "1 0"
    try:
        r = read(data)
    except Cut:
        return "2 %d" % len(data)
    for fault, places in ((3, limits), (4, regions), (5, indexes), (6, rights)):
        found = sorted(places(r)) if fault != 4 else list(places(r))
        if found:
            return "%d %d" % (fault, min(found) if fault != 4 else found[0])
    return "ok"


def upgraded(data):
    """The same in version 2, with its sweep rate."""
    if data[4] == 2:
        return data
    return data[:4] + number(2) + data[8:52] + number(64) + data[52:]
