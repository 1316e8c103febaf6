"""The lines of a run (docs/use/run.md, "The lines of a run"), read by the positions of their words, and by names.

What a word is, its place in the line's form alone says: a value may begin with the digit e, an address with c.
"""
import collections
import re

from manners import Refusal
from reports import title

NAMES = "zero ra sp gp tp t0 t1 t2 s0 s1 a0 a1 a2 a3 a4 a5".split()
PCC = 16
CAPABILITY = 28
CODES = {1: "bounds", 2: "tag", 3: "seal", 17: "execute", 18: "load", 19: "store", 21: "store of a capability",
         24: "system registers"}
CAUSES = {0: "misaligned fetch", 2: "illegal instruction", 3: "breakpoint", 4: "misaligned load",
          6: "misaligned store", 11: "environment call"}
REGISTERS = {("uart", 0): "data", ("uart", 4): "waiting", ("timer", 0): "low", ("timer", 4): "high",
             ("gpio", 0): "output", ("gpio", 4): "input"}
DEVICE_BYTES = 16
END = "end"

# What stands behind the step in a line of each kind: numbers, numbers behind a letter, and numbers in hexadecimal
# digits. A member that a kind hasn't is None.
WHO = "thread:t actor:c"
ACCESS, HEAP = f"{WHO} entry:e address:x width: value:x", f"{WHO} entry:e object:n address:x length: live:"
FORMS = {"call": f"{WHO} entry:e export:e", "load": ACCESS, "store": ACCESS, "allocate": HEAP, "free": HEAP,
         "trap": f"{WHO} cause: code: register:", "off": f"{WHO} export:e"}
FORMS = {kind: [member.split(":") for member in form.split()] for kind, form in FORMS.items()}
MEMBERS = "step kind text thread actor entry export object address width value length live cause code register"
Line = collections.namedtuple("Line", MEMBERS, defaults=[None] * 13)
HEXADECIMAL, DECIMAL = re.compile("([0-9a-f]{2}){1,8}"), re.compile("[0-9]+")


def number_of(word, sign):
    """The number of a word that has a sign before it: none, a letter, or x for hexadecimal digits."""
    if not (HEXADECIMAL.fullmatch(word) if sign == "x" else DECIMAL.fullmatch(word, len(sign))):
        raise ValueError(word)
    return int(word, 16) if sign == "x" else int(word.removeprefix(sign))


def line_of(text):
    """A line of a run but the last; ValueError where it has no form of one."""
    step, kind, *words = text.split(" ")
    form = FORMS.get(kind, ())
    if not form or len(words) != len(form):
        raise ValueError(text)
    numbers = {name: number_of(word, sign) for word, (name, sign) in zip(words, form)}
    return Line(number_of(step, ""), kind, text, **numbers)


def lines_of(report, texts):
    """Each line of a run of this report with its columns, and the last one as None and its text. A text has its line
    feed; what is no line of such a run, or was cut, is refused."""
    for number, text in enumerate(texts, 2):
        bare = text.removesuffix("\n")
        if bare.startswith(END + " "):
            yield None, bare
            continue
        try:
            if bare == text:
                raise ValueError(text)
            line = line_of(bare)
            columns = row(report, line)
        except (ValueError, LookupError, StopIteration):
            why = "was cut" if bare == text else f"is no line of a run of {report.firmware}"
            raise Refusal(f"line {number} {why}: {bare[:80]}") from None
        yield line, columns


# ---- by names

def register(number):
    """A register as the assembler names it, as a capability."""
    return "pcc" if number == PCC else "c" + NAMES[number]


def trap_text(line):
    """What a trap's three numbers mean."""
    if line.cause == CAPABILITY:
        return f"capability: {CODES[line.code]}, register {register(line.register)}"
    return CAUSES[line.cause]


def device_at(report, address):
    """The device whose bytes hold an address, and the offset there."""
    device = next(row for row in report.devices if row["base"] <= address < row["base"] + DEVICE_BYTES)
    return device, address - device["base"]


def access_text(report, line):
    """The register of a device and the value, with its character where a serial port's is one."""
    device, offset = device_at(report, line.address)
    name = REGISTERS.get((device["kind"], offset), f"+{offset}")
    low = line.value & 255
    sign = f" {chr(low)!r}" if device["kind"] == "uart" and offset == 0 and 32 <= low < 127 else ""
    return f"{device['name']} {name} {line.value:0{2 * line.width}x}{sign}"


def deed(report, line):
    """What a line says was done, and the entry by which it was."""
    if line.kind == "trap":
        return trap_text(line), ""
    if line.kind == "off":
        return f"interrupts off by {title(report.entry[line.export])}", ""
    by = title(report.entry[line.entry])
    if line.kind == "call":
        return title(report.entry[line.export]), by
    if line.kind in ("load", "store"):
        return access_text(report, line), by
    return f"n{line.object} at {line.address:08x}, {line.length} bytes; {line.live} charged", by


def row(report, line):
    """A line as six columns."""
    return (str(line.step), report.threads[line.thread]["name"], report.compartments[line.actor], line.kind,
            *deed(report, line))


# ---- what a run comes to

class Sums:
    """What went out of each serial port, and which objects are still allocated, of the lines that were added."""

    def __init__(self, report):
        self.report, self.said, self.live = report, {}, {}

    def add(self, line):
        if line.kind == "store":
            device, offset = device_at(self.report, line.address)
            if device["kind"] == "uart" and offset == 0:
                self.said.setdefault(device["name"], bytearray()).append(line.value & 255)
        elif line.kind == "allocate":
            self.live[line.object] = line
        elif line.kind == "free":
            self.live.pop(line.object, None)

    def lines(self):
        """A line for each port that said something, and for each object that was allocated and not freed."""
        for device in self.report.devices:
            if device["name"] in self.said:
                yield f"{device['name']} said {bytes(self.said[device['name']])!r}"
        for number, line in self.live.items():
            yield (f"still allocated: n{number}, {line.length} bytes at {line.address:08x}, on "
                   f"{title(self.report.entry[line.entry])}, since step {line.step}")
