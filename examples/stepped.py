"""The trace of a run by the lines of its sources: what step.py writes where no option says otherwise."""
import collections

import traces
from capability_words import cap_text, number_text, register_name
from plain import place_name
from services import answer_text, unhandled

LOAD, STORE = 0x03, 0x23


def accessed(machine, moment):
    """The first address and the width of the access that a thread's next statement makes; None where it makes none."""
    pc = moment.pcc.address
    if not machine.in_ram(pc, 4):
        return None
    word = machine.peek(pc, 4)
    operation, kind, register = word & 127, word >> 12 & 7, word >> 15 & 15
    high = word >> 25 << 5
    offset = {LOAD: word >> 20, STORE: high | word >> 7 & 31}.get(operation)
    if offset is None:
        return None
    offset -= (offset >> 11) << 12
    return moment.registers[register].address + offset & 0xFFFFFFFF, 1 << (kind & 3)


def different(one, other):
    return (one.word, one.tag, one.root) != (other.word, other.tag, other.root)


class Trace:
    """Writes a line for each step that is to be shown, and below it what `run` tells of it."""

    def __init__(self, firmware, options):
        self.firmware, self.report, self.options = firmware, firmware.report, options
        self.origins = collections.defaultdict(lambda: [None] * 16)
        self.idle, self.keys = None, {}
        self.widths = [max([len(name) for name in column], default=0) for column in (
            [thread["name"] for thread in self.report.threads], self.report.compartments,
            [self.spot(place) for place in firmware.places.values()],
            [place.statement for place in firmware.places.values()])]

    def again(self):
        """The run begins anew."""
        self.origins.clear()
        self.idle = None

    # -- places

    def spot(self, place):
        """A place by its file's line and its label."""
        return f"{place.file}:{place.line} {place_name(place)}" if place.file else \
            f"{place.owner}.{place_name(place)}" if place.owner else place_name(place)

    def spot_at(self, address):
        place = self.firmware.place_at(address)
        return self.spot(place) if place else f"{address:08x}"

    def statement_at(self, machine, address):
        place = self.firmware.place_at(address)
        if place and place.statement:
            return place.statement
        return f"{machine.peek(address, 4):08x}" if machine.in_ram(address, 4) and address % 4 == 0 else ""

    # -- what a step did

    def before(self, machine, moment):
        pass

    def came(self, machine, device, byte):
        step = machine.count["steps"] + 1
        if step >= self.options.start and not self.options.told:
            print(*self.rest(), f"{step:6} byte {byte} comes to {self.report.devices[device]['name']}", sep="\n")

    def shows(self, step, moment, lines):
        """Whether a step is to be shown."""
        wanted = self.options.thread
        return step >= self.options.start and (lines or not self.options.told) and \
            (not wanted or moment and self.report.threads[moment.thread]["name"] == wanted)

    def after(self, machine, moment, lines):
        step, self.keys = machine.count["steps"], machine.keys
        origins = list(self.origins[moment.thread]) if moment else []
        changed = self.changed(machine, moment, step) if moment else []
        if not self.shows(step, moment, lines):
            return
        if moment is None:
            self.idle = (self.idle or (step, step))[0], step
            return
        thread = self.report.threads[moment.thread]["name"]
        compartment = self.report.compartments[moment.actor]
        pc = moment.pcc.address
        cells = (thread, compartment, self.spot_at(pc), self.statement_at(machine, pc))
        row = "  ".join(cell.ljust(width) for cell, width in zip(cells, self.widths))
        print(*self.rest(), f"{step:6} {row}  {'  '.join(changed)}".rstrip(), sep="\n")
        for line in lines:
            self.show_deed(machine, moment, line, origins)

    def rest(self):
        """A line of the steps before this in which no thread ran, if there are any."""
        if self.idle:
            first, last = self.idle
            yield f"{first:6} no thread is ready" + (f", up to step {last}" if last > first else "")
        self.idle = None

    def changed(self, machine, moment, step):
        """What a step changed of its thread, in words; it notes which step set which register."""
        thread, origins = machine.threads[moment.thread], self.origins[moment.thread]
        new = [n for n in range(16) if thread.regs[n] is not moment.registers[n]]
        for n in new:
            origins[n] = step, self.spot_at(moment.pcc.address)
        if len(new) > 1:
            new = [n for n in new if different(thread.regs[n], moment.registers[n])]
        if not thread.frames:
            return ["the thread ends"]
        place = self.firmware.place_at(moment.pcc.address)
        routine = place_name(place)[1:-1] if place and not place.owner else ""
        if len(thread.frames) != moment.depth:
            entered = len(thread.frames) > moment.depth
            where = f"{'enters' if entered else 'back in'} {self.report.compartments[machine.actor(moment.thread)]}"
            values = self.values(thread, range(10, 16)) if entered else self.values(thread, [10], all_of=True)
            return [f"{where} at {self.spot_at(thread.pcc.address)}", *values]
        if routine and 10 in new:
            rest = {int: "the thread sleeps", tuple: "the thread waits"}.get(type(thread.status), "")
            answer = number_text(thread.regs[10].address) + answer_text(routine, thread.regs[10].address)
            return [rest or f"a0 = {answer}" if not thread.regs[10].tag else self.values(thread, [10])[0]]
        return self.values(thread, new, all_of=True)

    def cap_text(self, cap, rights=False):
        return cap_text(self.report, cap, rights, self.keys)

    def values(self, thread, registers, all_of=False):
        """Registers with what they hold; those of zero only where all are asked for."""
        return [f"{register_name(n, cap)} = {self.cap_text(cap)}"
                for n, cap in ((n, thread.regs[n]) for n in registers) if all_of or cap.word or cap.tag]

    # -- what is told

    def show_deed(self, machine, moment, line, origins):
        told = traces.line_of(line)
        what, by = traces.deed(self.report, told)
        named = what + (f", by {by}" if by else "")
        print(f"       > {line}  ({named})")
        if told.kind == "trap":
            for text in self.why(machine, moment, origins, told.cause, told.code, told.register):
                print(f"         {text}")

    def why(self, machine, moment, origins, cause, code, number):
        """Why a trap came: the register that failed and where it was set, the access, and where the thread goes on."""
        if cause == traces.CAPABILITY:
            yield from self.failed(machine, moment, origins, code, number)
        elif cause == 2:
            word = self.statement_at(machine, moment.pcc.address)
            yield f"no instruction: {word or self.spot_at(moment.pcc.address)}"
        elif cause in (4, 6):
            address, width = accessed(machine, moment) or (moment.registers[10].address, 4)
            yield f"{address:08x} is no multiple of {width}"
        thread = machine.threads[moment.thread]
        if len(thread.frames) == moment.depth:
            actor = self.report.compartments[machine.actor(moment.thread)]
            yield f"{actor} handles it at {self.spot_at(thread.pcc.address)}"
        elif thread.frames:
            actor = self.report.compartments[machine.actor(moment.thread)]
            if machine.i.owners[moment.actor].handler:
                yield f"its handler isn't entered: {unhandled(machine, moment)}"
            yield f"{actor} goes on at {self.spot_at(thread.pcc.address)} with a0 = -1"
        else:
            yield "it was the thread's first frame"

    def failed(self, machine, moment, origins, code, number):
        """The capability that failed a check."""
        cap = moment.pcc if number == traces.PCC else moment.registers[number]
        origin = None if number == traces.PCC else origins[number]
        since = f"; set in step {origin[0]}, {origin[1]}" if origin else ""
        yield f"{traces.register(number)} was {self.cap_text(cap, rights=True)}{since}"
        place = accessed(machine, moment)
        if code == 1 and number != traces.PCC and place:
            yield f"the access is of {place[1]} bytes at {place[0]:08x}"
        base = cap.bounds()[0]
        freed = [row.number for row in machine.objects
                 if not row.live and row.base - 8 <= base < row.base + row.length]
        if code == 2 and cap.high and freed:
            yield f"object n{freed[0]} there was freed"
