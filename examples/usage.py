"""How much of each bound a run used: stacks, frames, quotas and the heap, for step.py."""
import collections

from reports import table, title

CSP = 2
HEAD = 8  # the bytes of a chunk before its object


class Use:
    """Of an export: how often it was entered, and how deep its own stack and that with its callees went."""

    def __init__(self):
        self.entered = self.own = self.whole = 0


class Usage:
    """A watcher of a run that keeps the greatest use of each bound."""

    def __init__(self, firmware):
        self.report, self.exports = firmware.report, collections.defaultdict(Use)
        self.stack, self.frames, self.most = collections.Counter(), collections.Counter(), {}
        self.charged, self.tokens, self.live, self.taken = (collections.Counter() for _ in range(4))
        self.heap = firmware.report.heap["length"]

    def before(self, machine, moment):
        for thread in range(len(machine.threads)) if machine.count["steps"] == 1 else ():
            self.enter(machine, thread)
        self.measure(machine, moment.thread)

    def after(self, machine, moment, lines):
        if moment is None:
            return
        if len(machine.threads[moment.thread].frames) > moment.depth:
            self.enter(machine, moment.thread)
        self.measure(machine, moment.thread)
        if any(line.split(" ")[1] == "allocate" for line in lines):
            self.allocated(machine)

    def came(self, machine, device, byte):
        pass

    def enter(self, machine, number):
        """A frame was entered: its caller's stack must have room for what its export asks for."""
        thread = machine.threads[number]
        frame = thread.frames[-1]
        self.exports[frame.export].entered += 1
        self.frames[number] = max(self.frames[number], len(thread.frames))
        self.deepen(number, thread.frames[:-1], frame.top - machine.rows[frame.export].stack)

    def measure(self, machine, number):
        """The stack of a thread goes down to its stack register."""
        thread = machine.threads[number]
        csp = thread.regs[CSP]
        if thread.frames and csp.tag and thread.base <= csp.address <= thread.frames[-1].top:
            own = self.exports[thread.frames[-1].export]
            own.own = max(own.own, thread.frames[-1].top - csp.address)
            self.deepen(number, thread.frames, csp.address)

    def deepen(self, number, frames, low):
        """These frames of a thread, the outermost first, need its stack down to an address."""
        for frame in frames:
            use = self.exports[frame.export]
            use.whole = max(use.whole, frame.top - low)
        for frame in frames[:1]:
            self.stack[number] = max(self.stack[number], frame.top - low)

    def allocated(self, machine):
        """An object was allocated: charges, tokens and the heap may be at their most."""
        for quota in {row.quota for row in machine.objects if row.live}:
            rows = [row for row in machine.objects if row.live and row.quota == quota]
            self.charged[quota] = max(self.charged[quota], machine.charges(quota))
            self.tokens[quota] = max(self.tokens[quota], sum(bool(row.key) for row in rows))
        lengths = [(row.live, row.length + HEAD) for row in machine.objects]
        self.live[0] = max(self.live[0], sum(length for live, length in lengths if live))
        self.taken[0] = max(self.taken[0], sum(length for _, length in lengths))

    # -- what is written

    def threads(self):
        stacks = {row["owner"]: row["length"] for row in self.report.of_kind("stack")}
        yield "thread", "stack", "needed", "frames at most"
        for number, thread in enumerate(self.report.threads):
            yield thread["name"], stacks[thread["name"]], self.stack[number], self.frames[number]

    def entered(self):
        yield "export", "entered", "own stack", "with callees", "asks for"
        for entry in self.report.of_kind("export"):
            if entry["owner"] in self.report.compartments:
                use = self.exports[entry["number"]]
                yield title(entry), use.entered, use.own, use.whole, entry.get("stack", 0)

    def quotas(self):
        yield "quota", "limit", "charged at most", "tokens at most"
        for entry in self.report.of_kind("quota"):
            number = entry["number"]
            yield title(entry), entry["limit"], self.charged[number], self.tokens[number]

    def rest(self):
        """The tables, and a line for the heap."""
        for part in (self.threads, self.entered, self.quotas):
            rows = list(part())
            yield from table(rows if len(rows) > 1 else [])
        yield f"heap of {self.heap} bytes: {self.live[0]} live at most, {self.taken[0]} with what waits for a sweep"
