"""A plain, slow machine: it runs images by the rules of docs/use/machine.md, and knows nothing of the program.

The heap is in heap.py, with its routines from 6 on.
"""
from model.words import (CODE, EX, EXECUTABLE_ROOT, GL, GLOBALS, LD, LG, LM, M32, MC, MEMORY_ROOT, SD, SE, SEALING_ROOT,
                         SL, STACK, US, Cap, derive, integer, normal, round_length, unpack)

LAST_ROUTINE = 5
RECORD = 80  # the bytes of the record of a trap


# ---- the machine

class Row:
    """Whatever members it is given."""


class Trap(Exception):
    def __init__(self, cause, code=0, register=0):
        self.told = cause, code, register


def cap_trap(code, register):
    return Trap(28, code, register)


def signed(n):
    return n - 2 ** 32 if n >> 31 else n


class Machine:
    def __init__(self, image):
        """As it boots an image that the reference of images read."""
        self.i = image
        self.ram, self.size = image.ram, image.size
        self.g = [Cap() for _ in range(image.size // 8)]
        self.rows = {}  # number -> Row
        number = 0
        owners = image.owners + image.libraries

        def add(**members):
            nonlocal number
            number += 1
            row = Row()
            row.__dict__.update(members)
            self.rows[number] = row
            return number
        for o, p in enumerate(owners):
            p.code_entry = add(kind="code", base=p.base, length=p.length)
            if p.own:
                p.globals_entry = add(kind="globals", base=p.globals, length=p.size)
            p.slot_entries = [add(kind="slot", row=row, at=p.base + 8 * n) for n, (_, row, _) in enumerate(p.slots)]
            p.export_entries, p.handler = [], 0
            for n, (_, row, field) in enumerate(p.exports):
                offset = int.from_bytes(row[0:4], "little")
                stack = int.from_bytes(row[4:8], "little")
                e = add(kind="export", owner=o, code=p.base + 8 * len(p.slots) + offset, stack=stack, args=row[8],
                        posture=row[9], passes=row[10] == 1, at=(p.table + 16 + 16 * n) if p.own else 0)
                p.export_entries.append(e)
                if p.own and field.rstrip(b"\0") == b"handler":
                    p.handler = e
                assert int.from_bytes(row[12:16], "little") == e, (row[12:16], e)
        stacks = [add(kind="stack", base=t[2], length=t[3]) for t in image.threads]
        self.back = derive(EXECUTABLE_ROOT, 65552, 8, GL | LD | MC | EX, 65552, 5, 0)
        self.put(image.trusted, self.back)
        for p in owners:
            p.code = derive(EXECUTABLE_ROOT, p.base, p.length, CODE, p.base, 0, p.code_entry)
            if p.own:
                p.cgp = derive(MEMORY_ROOT, p.globals, p.size, GLOBALS, p.globals, 0, p.globals_entry)
                self.put(p.table, p.code)
                self.put(p.table + 8, p.cgp)
                for n, (_, row, _) in enumerate(p.exports):
                    self.bytes_at(p.table + 16 + 16 * n, row)
                self.bytes_at(p.globals, p.initial)
            self.bytes_at(p.base + 8 * len(p.slots), p.text)
        for s in image.sealed:
            self.bytes_at(s[2], s[5])
        for p in owners:
            for n, (_, row, _) in enumerate(p.slots):
                self.put(p.base + 8 * n, self.slot(image, owners, p, n, row))
        self.threads = []
        for n, t in enumerate(image.threads):
            th = Row()
            p = image.owners[t[4]]
            e = p.export_entries[t[5]]
            th.base = t[2]
            th.pcc = p.code.at(self.rows[e].code)
            th.regs = [Cap() for _ in range(16)]
            th.regs[1] = self.back
            th.regs[2] = derive(MEMORY_ROOT, t[2], t[3], STACK, t[2] + t[3], 0, stacks[n])
            th.regs[3] = p.cgp
            f = Row()
            f.actor, f.export, f.top, f.saved, f.handling = t[4], e, t[2] + t[3], None, False
            th.frames = [f]  # innermost last
            th.most = t[7]
            th.priority = t[6]
            th.status = "ready"
            th.off = e if self.rows[e].posture == 2 else None
            self.threads.append(th)
        self.running, self.pending = None, False
        self.time, self.order = 0, list(range(len(self.threads)))
        self.devices = []
        for d in image.devices:
            dev = Row()
            dev.base, dev.kind, dev.queue, dev.out, dev.pins = d[3], d[2], [], 0, 0
            self.devices.append(dev)
        self.count = dict(steps=0, ticks=0, calls=0, devices=0, allocations=0, frees=0, traps=0)

    def slot(self, image, owners, p, n, row):
        entry, kind, packed = p.slot_entries[n], row[0], row[1]
        first, second = int.from_bytes(row[4:8], "little"), int.from_bytes(row[8:12], "little")
        if kind == 1:
            at = 65536 + 16 * first
            return derive(EXECUTABLE_ROOT, at, 8, GL | LD | MC | EX, at, 1, entry)
        if kind == 2:
            return derive(MEMORY_ROOT, image.devices[first][3], 16, unpack(packed), image.devices[first][3], 0, entry)
        if kind == 3:
            s = image.shared[first]
            return derive(MEMORY_ROOT, s[2], s[3], unpack(packed), s[2], 0, entry)
        if kind == 4:
            s = image.sealed[first]
            return derive(MEMORY_ROOT, s[2], s[3], GL | SD | LD, s[2], s[4], entry)
        if kind == 5:
            to = image.owners[first].export_entries[second]
            self.rows[entry].of = to
            at = self.rows[to].at
            return derive(MEMORY_ROOT, at, 16, GL | LD, at, 9, entry)
        if kind == 6:
            q = image.libraries[first]
            to = q.export_entries[second]
            self.rows[entry].of = to
            return derive(EXECUTABLE_ROOT, q.base, q.length, CODE, self.rows[to].code, self.rows[to].posture, entry)
        if kind == 7:
            at = p.base + 8 * n
            return derive(MEMORY_ROOT, at, 8, GL | LD, at, 10, entry)
        return derive(SEALING_ROOT, first, 1, GL | US | SE, first, 0, entry)

    # -- memory

    def put(self, at, cap):
        self.g[(at - self.ram) // 8] = cap

    def bytes_at(self, at, data):
        for n, byte in enumerate(data):
            self.poke(at + n, 1, byte)

    def poke(self, at, width, value):
        k, off = divmod(at - self.ram, 8)
        mask = (256 ** width - 1) << 8 * off
        self.g[k] = Cap(self.g[k].word & ~mask | (value << 8 * off) & mask)

    def peek(self, at, width):
        k, off = divmod(at - self.ram, 8)
        return self.g[k].word >> 8 * off & (256 ** width - 1)

    def in_ram(self, at, width):
        return self.ram <= at and at + width <= self.ram + self.size

    def zero(self, base, top):
        for at in range(base, top, 8):
            self.put(at, Cap())

    # -- events

    def actor(self, t):
        return self.threads[t].frames[-1].actor if self.threads[t].frames else 0

    def holder(self):
        if self.running is None or self.threads[self.running].off is None:
            return None
        return self.running, self.threads[self.running].off

    def tick(self):
        self.time += 1
        self.count["ticks"] += 1
        for th in self.threads:
            if isinstance(th.status, int):
                th.status = th.status - 1 or "ready"
        if self.running is not None:
            if self.threads[self.running].off is not None:
                self.pending = True
            else:
                self.running = None

    def input(self, n, byte):
        d = self.devices[n]
        if d.kind == 1:
            d.queue = (d.queue + [byte])[-64:]
        elif d.kind == 3:
            d.pins = byte

    def pick(self):
        ready = [t for t in self.order if self.threads[t].status == "ready"]
        if not ready:
            return None
        best = max(self.threads[t].priority for t in ready)
        return next(t for t in ready if self.threads[t].priority == best)

    def step(self):
        """The deed of a step: words of its line after the number, or None; and the off line."""
        before = self.holder()
        self.count["steps"] += 1
        if self.running is not None and self.pending and self.threads[self.running].off is None:
            self.running, self.pending = None, False
        if self.running is None:
            t = self.pick()
            if t is not None:
                self.running = t
                self.order = [u for u in self.order if u != t] + [t]
        told = []
        if self.running is not None:
            t = self.running
            actor = self.actor(t)
            try:
                deed = self.execute(t)
            except Trap as why:
                self.count["traps"] += 1
                self.trapped(t, why)
                deed = "trap", None, " ".join(map(str, why.told))
            if deed:
                kind, entry, rest = deed
                by = [f"e{entry}"] if entry is not None else []
                told.append(" ".join([kind, f"t{t}", f"c{actor}", *by, rest]))
        after = self.holder()
        if after and after != before:
            told.append(f"off t{after[0]} c{self.actor(after[0])} e{after[1]}")
        return told

    # -- frames

    def leave(self, t, first, second):
        th = self.threads[t]
        f = th.frames.pop()
        self.zero(th.base, f.top)
        if not th.frames:
            th.status = "ended"
            th.regs = [Cap() for _ in range(16)]
            th.pcc = Cap()
            th.off = None
            self.running = None
            return
        c1, c2, c3, c8, c9 = f.saved
        th.regs = [Cap() for _ in range(16)]
        th.regs[2], th.regs[3], th.regs[8], th.regs[9], th.regs[10], th.regs[11] = c2, c3, c8, c9, first, second
        th.pcc, th.off = self.through(th, c1)

    def through(self, th, c, named=0):
        pcc = Cap(c.with_field(0).word, c.tag, c.root, 0)
        s = c.seal
        return pcc, {2: named, 3: None, 5: None, 4: c.source}.get(s, th.off)

    def unwind(self, t):
        self.leave(t, integer(M32), integer(0))

    def trapped(self, t, why):
        """Into the error handler of the frame's compartment, where it has one, was not yet entered and has room."""
        th = self.threads[t]
        f = th.frames[-1]
        p = self.i.owners[f.actor]
        at = (th.regs[2].address & ~15) - RECORD
        if not p.handler or f.handling or self.stack_code(th) or at < th.base:
            self.unwind(t)
            return
        for n, word in enumerate([c.address for c in th.regs] + [th.pcc.address, *why.told]):
            self.poke(at + 4 * n, 4, word)
        stack = th.regs[2].at(at)
        th.regs = [Cap() for _ in range(16)]
        th.regs[1], th.regs[2], th.regs[3] = self.back, stack, p.cgp
        th.regs[10:13] = map(integer, why.told)
        th.pcc, th.off, f.handling = p.code.at(self.rows[p.handler].code), None, True

    def give_back(self, t):
        th = self.threads[t]
        f = th.frames[-1]
        if f.handling:
            value = th.regs[11].address if th.regs[10].address == 1 else M32
            self.leave(t, integer(value), integer(0))
            return
        keep = (lambda c: c) if self.rows[f.export].passes else (lambda c: c.put(tag=False))
        self.leave(t, keep(th.regs[10]), keep(th.regs[11]))

    # -- routines

    def answer(self, t, value):
        th = self.threads[t]
        th.pcc, th.off = self.through(th, th.regs[1])
        th.regs[10], th.regs[11] = value, integer(0)

    def native(self, t, number):
        th = self.threads[t]
        if number == 1:
            self.give_back(t)
            return None
        if number > LAST_ROUTINE:
            raise Trap(2)
        c1 = th.regs[1]
        if not c1.tag:
            raise cap_trap(2, 1)
        if c1.seal not in (4, 5):
            raise cap_trap(3, 1)
        if number == 0:
            return self.switch(t)
        if number == 2:
            self.answer(t, integer(0))
            self.running = None
        elif number == 3:
            n = th.regs[10].address
            self.answer(t, integer(0))
            self.running = None
            th.status = n or "ready"
        else:
            c = th.regs[10]
            at = c.address
            if not c.tag:
                raise cap_trap(2, 10)
            if c.field:
                raise cap_trap(3, 10)
            if not c.perms & LD:
                raise cap_trap(18, 10)
            if not (c.holds(at, 4) and self.in_ram(at, 4)):
                raise cap_trap(1, 10)
            if at % 4:
                raise Trap(4)
            value = th.regs[11].address
            if number == 4:
                if self.peek(at, 4) == value:
                    self.answer(t, integer(0))
                    self.running = None
                    th.status = ("waits", at)
                else:
                    self.answer(t, integer(-21))
            else:
                woken = [u for u, other in enumerate(self.threads) if other.status == ("waits", at)][:value]
                for u in woken:
                    self.threads[u].status = "ready"
                self.answer(t, integer(len(woken)))
        return None

    def stack_code(self, th):
        """The code of the first check of c2 that fails, which the switch and the entry of an error handler make."""
        c2 = th.regs[2]
        if not c2.tag:
            return 2
        if c2.field:
            return 3
        if not c2.perms & SL:
            return 19
        return None if c2.bounds()[0] == th.base and th.base <= c2.address <= th.frames[-1].top else 1

    def switch(self, t):
        th = self.threads[t]
        c6, c2 = th.regs[6], th.regs[2]
        if not c6.tag:
            raise cap_trap(2, 6)
        if c6.seal != 9:
            raise cap_trap(3, 6)
        code = self.stack_code(th)
        if code:
            raise cap_trap(code, 2)
        length = c2.address - th.base
        e = next(e for e in list(range(4, 15)) + [14] if length >> e <= 511)
        top = th.base + (length >> e << e)
        export = self.rows[c6.root].of
        x = self.rows[export]
        if len(th.frames) == th.most:
            self.answer(t, integer(-12))
            return None
        if top - th.base < x.stack:
            self.answer(t, integer(-11))
            return None
        f = Row()
        f.actor, f.export, f.top, f.handling = x.owner, export, top, False
        f.saved = tuple(th.regs[n] for n in (1, 2, 3, 8, 9))
        old = th.regs
        keep = (lambda c: c) if x.passes else (lambda c: c.put(tag=False))
        th.frames.append(f)
        self.zero(th.base, top)
        p = self.i.owners[x.owner]
        th.pcc = p.code.at(x.code)
        th.regs = [Cap() for _ in range(16)]
        th.regs[1] = self.back
        th.regs[2] = derive(MEMORY_ROOT, th.base, top - th.base, STACK, top, 0, c2.root, c2.source)
        th.regs[3] = p.cgp
        for n in range(x.args):
            th.regs[10 + n] = keep(old[10 + n])
        th.off = export if x.posture == 2 else None
        self.count["calls"] += 1
        return "call", c6.root, f"e{export}"

    # -- one instruction

    def execute(self, t):
        th = self.threads[t]
        pcc = th.pcc
        if not pcc.tag:
            raise cap_trap(2, 16)
        if pcc.field:
            raise cap_trap(3, 16)
        if not pcc.perms & EX:
            raise cap_trap(17, 16)
        pc = pcc.address
        if not pcc.holds(pc, 4):
            raise cap_trap(1, 16)
        if 65536 <= pc < 65536 + 16 * 13 and pc % 16 == 0:
            return self.native(t, (pc - 65536) // 16)
        if not self.in_ram(pc, 4) or pc % 4:
            raise Trap(2)
        return self.instruct(t, th, self.peek(pc, 4))

    def instruct(self, t, th, w):
        op, rd, f3, rs1, rs2, f7 = w & 127, w >> 7 & 31, w >> 12 & 7, w >> 15 & 31, w >> 20 & 31, w >> 25
        imm = signed(w) >> 20
        R = th.regs
        bad = Trap(2)

        def reg(n):
            if n > 15:
                raise bad
            return R[n]

        def gives(to, value):
            if to:
                R[to] = value
            th.pcc = th.pcc.at(th.pcc.address + 4)

        def need(*ns):
            if any(n > 15 for n in ns):
                raise bad

        if op in (0x37, 0x17, 0x7B):
            need(rd)
            n = signed(w & 0xFFFFF000) >> 12
            if op == 0x37:
                return gives(rd, integer(n << 12))
            c = th.pcc if op == 0x17 else R[3]
            return gives(rd, c.at(c.address + n * 2048))
        if op == 0x6F:
            need(rd)
            off = (w >> 31) << 20 | (w >> 12 & 255) << 12 | (w >> 20 & 1) << 11 | (w >> 21 & 1023) << 1
            off -= (w >> 31) << 21
            target = (th.pcc.address + off) & M32
            if target % 4:
                raise Trap(0)
            link = self.linked(th)
            if rd:
                R[rd] = link
            th.pcc = th.pcc.at(target)
            return None
        if op == 0x67 and f3 == 0:
            need(rd, rs1)
            return self.jump(th, rd, rs1, imm)
        if op == 0x63 and f3 in (0, 1, 4, 5, 6, 7):
            need(rs1, rs2)
            a, b = R[rs1].address, R[rs2].address
            taken = [a == b, a != b, 0, 0, signed(a) < signed(b), signed(a) >= signed(b), a < b, a >= b][f3]
            off = (w >> 31) << 12 | (w >> 7 & 1) << 11 | (w >> 25 & 63) << 5 | (w >> 8 & 15) << 1
            off -= (w >> 31) << 13
            if not taken:
                th.pcc = th.pcc.at(th.pcc.address + 4)
                return None
            target = (th.pcc.address + off) & M32
            if target % 4:
                raise Trap(0)
            th.pcc = th.pcc.at(target)
            return None
        if op == 0x03 and f3 <= 5:
            need(rd, rs1)
            return self.load(th, rd, rs1, imm, f3, gives)
        if op == 0x23 and f3 <= 3:
            need(rs1, rs2)
            imm = (imm & ~31) | (w >> 7 & 31)
            return self.store(th, rs1, rs2, imm, f3, gives)
        if op == 0x13 and f3 in (0, 2, 3, 4, 6, 7):
            need(rd, rs1)
            a = R[rs1].address
            i = imm & M32
            v = [a + i, 0, signed(a) < imm, a < i, a ^ i, 0, a | i, a & i][f3]
            return gives(rd, integer(int(v)))
        if op == 0x13 and f3 in (1, 5) and (f7 == 0 or f3 == 5 and f7 == 0x20):
            need(rd, rs1)
            a = R[rs1].address
            v = a << rs2 if f3 == 1 else (signed(a) >> rs2 if f7 else a >> rs2)
            return gives(rd, integer(v))
        if op == 0x33 and (f7 in (0, 1) or f7 == 0x20 and f3 in (0, 5)):
            need(rd, rs1, rs2)
            a, b = R[rs1].address, R[rs2].address
            sa, sb = signed(a), signed(b)
            if f7 == 1:
                v = [a * b, sa * sb >> 32, sa * b >> 32, a * b >> 32][f3] if f3 < 4 else self.divided(f3, a, b, sa, sb)
            elif f7:
                v = a - b if f3 == 0 else sa >> b % 32
            else:
                v = [a + b, a << b % 32, sa < sb, a < b, a ^ b, a >> b % 32, a | b, a & b][f3]
            return gives(rd, integer(int(v)))
        if op == 0x0F and f3 == 0 and rd == 0 and rs1 == 0:
            return gives(0, None)
        if w == 0x73:
            raise Trap(11)
        if w == 0x100073:
            raise Trap(3)
        if op == 0x73 and f3 in (1, 2, 3, 5, 6, 7):
            need(rd)
            if f3 < 4:
                need(rs1)
            raise cap_trap(24, 16)
        if op == 0x5B:
            return self.capability(th, rd, f3, rs1, rs2, f7, imm, need, gives)
        raise bad

    def divided(self, f3, a, b, sa, sb):
        if f3 == 4:
            return M32 if b == 0 else int(abs(sa) // abs(sb)) * (1 if (sa < 0) == (sb < 0) else -1)
        if f3 == 5:
            return M32 if b == 0 else a // b
        if f3 == 6:
            return a if b == 0 else (abs(sa) % abs(sb)) * (-1 if sa < 0 else 1)
        return a if b == 0 else a % b

    def linked(self, th):
        c = th.pcc.at(th.pcc.address + 4)
        if th.off is not None:
            return Cap(c.with_field(4).word, c.tag, c.root, th.off)
        return Cap(c.with_field(5).word, c.tag, c.root, 0)

    def jump(self, th, rd, rs1, n):
        x = th.regs[rs1]
        if not x.tag:
            raise cap_trap(2, rs1)
        s = x.seal
        allowed = (0, 4, 5) if rd == 0 and rs1 == 1 else (0, 1, 2, 3) if rd == 1 else (0, 1)
        if s not in allowed or (x.field and n):
            raise cap_trap(3, rs1)
        if not x.perms & EX:
            raise cap_trap(17, rs1)
        target = (x.address + n & M32) & ~1
        if target % 4:
            raise Trap(0)
        link = self.linked(th)
        pcc, off = self.through(th, x, getattr(self.rows.get(x.root), "of", 0))
        if rd:
            th.regs[rd] = link
        th.pcc, th.off = pcc.at(target), off
        return None

    def load(self, th, rd, rs1, imm, f3, gives):
        x = th.regs[rs1]
        width = (1, 2, 4, 8, 1, 2)[f3]
        at = x.address + imm & M32
        if not x.tag:
            raise cap_trap(2, rs1)
        if x.field:
            raise cap_trap(3, rs1)
        if not x.perms & LD:
            raise cap_trap(18, rs1)
        if not x.holds(at, width):
            raise cap_trap(1, rs1)
        if at % width:
            raise Trap(4)
        deed = None
        if self.in_ram(at, width):
            if width == 8:
                c = self.g[(at - self.ram) // 8]
            v = self.peek(at, width)
        else:
            v = self.device_load(at, width)
            c = Cap(v)
            self.count["devices"] += 1
            deed = "load", x.root, f"{at:08x} {width} {v:0{2 * width}x}"
        if width == 8:
            p = c.perms
            if c.field:
                if not x.perms & LG:
                    p &= ~GL
            else:
                if not x.perms & LM:
                    p &= ~(SD | LM)
                if not x.perms & LG:
                    p &= ~(GL | LG)
            gives(rd, c.with_perms(normal(p), c.tag and bool(x.perms & MC)))
        else:
            if f3 in (0, 1) and v >> 8 * width - 1:
                v -= 256 ** width
            gives(rd, integer(v))
        return deed

    def store(self, th, rs1, rs2, imm, f3, gives):
        x, y = th.regs[rs1], th.regs[rs2]
        width = 1 << f3
        at = x.address + imm & M32
        if not x.tag:
            raise cap_trap(2, rs1)
        if x.field:
            raise cap_trap(3, rs1)
        if not x.perms & SD:
            raise cap_trap(19, rs1)
        if width == 8 and y.tag and not x.perms & MC:
            raise cap_trap(21, rs1)
        if not x.holds(at, width):
            raise cap_trap(1, rs1)
        if at % width:
            raise Trap(6)
        v = y.word & (256 ** width - 1)
        deed = None
        if self.in_ram(at, width):
            if width == 8:
                keep = y.tag and (y.perms & GL or x.perms & SL)
                self.put(at, y.put(tag=bool(keep)))
            else:
                self.poke(at, width, v)
        else:
            for n in range(0, width, 4):
                d = next(d for d in self.devices if d.base <= at < d.base + 16)
                if d.kind == 3 and at + n - d.base == 0:
                    d.out = v >> 8 * n & M32
            self.count["devices"] += 1
            deed = "store", x.root, f"{at:08x} {width} {v:0{2 * width}x}"
        gives(0, None)
        return deed

    def device_load(self, at, width):
        d = next(d for d in self.devices if d.base <= at < d.base + 16)

        def register(o):
            if d.kind == 1:
                return (d.queue.pop(0) if d.queue else 0) if o == 0 else len(d.queue) if o == 4 else 0
            if d.kind == 2:
                return self.time & M32 if o == 0 else self.time >> 32 if o == 4 else 0
            return d.out if o == 0 else d.pins if o == 4 else 0
        o = at - d.base
        if width == 8:
            low = register(o)
            return low | register(o + 4) << 32
        return register(o & ~3) >> 8 * (o % 4) & (256 ** width - 1)

    def capability(self, th, rd, f3, rs1, rs2, f7, imm, need, gives):
        R = th.regs
        if f3 == 1:
            need(rd, rs1)
            return gives(rd, R[rs1].at(R[rs1].address + imm))
        if f3 == 2:
            need(rd, rs1)
            return gives(rd, R[rs1].bounded(imm & 0xFFF))
        if f3:
            raise Trap(2)
        if f7 == 1:
            need(rd, rs1)
            raise cap_trap(24, 16)
        if f7 == 0x7F:
            need(rd, rs1)
            c = R[rs1]
            b, top = c.bounds()
            f = {0: lambda: c.perms, 1: lambda: c.seal, 2: lambda: b, 3: lambda: 0 if top < b else min(top - b, M32),
                 4: lambda: int(c.tag), 8: lambda: round_length(c.address)[1],
                 9: lambda: 2 ** 32 - 2 ** round_length(c.address)[0], 15: lambda: c.address, 23: lambda: c.high,
                 24: lambda: min(top, M32)}
            if rs2 == 10:
                return gives(rd, c)
            if rs2 == 11:
                return gives(rd, c.put(tag=False))
            if rs2 not in f:
                raise Trap(2)
            return gives(rd, integer(f[rs2]()))
        need(rd, rs1, rs2)
        x, y = R[rs1], R[rs2]
        n = y.address
        if f7 == 8:
            return gives(rd, x.bounded(n))
        if f7 == 9:
            return gives(rd, x.bounded(n, True))
        if f7 == 0x0B:
            kinds = range(1, 6) if x.perms & EX else range(9, 16)
            keep = x.tag and not x.field and y.tag and not y.field and y.perms & SE and y.holds(n, 1) and n in kinds
            field = (n if x.perms & EX else n - 8) if n in kinds else x.field
            return gives(rd, x.with_field(field, bool(keep)))
        if f7 == 0x0C:
            keep = x.tag and x.field and y.tag and not y.field and y.perms & US and n == x.seal and y.holds(n, 1)
            c = x.with_field(0, bool(keep))
            if not y.perms & GL:
                c = c.with_perms(c.perms & ~GL, c.tag)
            return gives(rd, c)
        if f7 == 0x0D:
            return gives(rd, x.masked(n & 0xFFF))
        if f7 == 0x10:
            return gives(rd, x.at(n))
        if f7 == 0x11:
            return gives(rd, x.at(x.address + n))
        if f7 == 0x14:
            return gives(rd, integer(x.address - n))
        if f7 == 0x16:
            return gives(rd, Cap(n << 32 | x.address))
        if f7 == 0x20:
            outer, inner = x.bounds(), y.bounds()
            lies = outer[0] <= inner[0] and inner[1] <= outer[1] and not y.perms & ~x.perms
            return gives(rd, integer(int(x.tag == y.tag and lies)))
        if f7 == 0x21:
            return gives(rd, integer(int(x.tag == y.tag and x.word == y.word)))
        raise Trap(2)

    # -- a run

    def sweep(self):
        """A slice of the revoker: nothing without a heap."""

    def ended(self):
        states = [th.status for th in self.threads]
        if all(s == "ended" for s in states):
            return "finished"
        if all(s == "ended" or isinstance(s, tuple) for s in states):
            return "idle"
        return None

    def run(self, limit, quantum, script=()):
        """The lines of a run: `script` is rows of a step, a device's number and the byte that comes to it."""
        out, k = [], 0
        while True:
            end = self.ended() or ("limit" if k == limit else None)
            if end:
                break
            k += 1
            for step, device, byte in script:
                if step == k:
                    self.input(device, byte)
            if k > 1 and (k - 1) % quantum == 0:
                self.tick()
            self.sweep()
            out += [f"{k} {line}" for line in self.step()]
        return out + [" ".join(["end", end, *(f"{what} {n}" for what, n in self.count.items())])]
