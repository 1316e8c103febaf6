"""Images as fields with their places, and as what they describe (docs/use/image.md)."""
from dataclasses import dataclass, field

NAME_BYTES = 32
KINDS = ["service", "device", "shared object", "sealed object", "call", "library", "quota", "key"]
DEVICES = ["uart", "timer", "gpio"]
POSTURES = ["inherit", "disabled", "enabled"]
@dataclass
class Field:
    """Some bytes of an image: where they begin, how many, what they are, and their number or text."""
    at: int
    count: int
    name: str
    value: object


@dataclass
class Owner:
    """A compartment or a library: its slots and exports as rows of numbers with names, its text and initial bytes."""
    kind: str
    name: str
    base: int = 0
    slots: list = field(default_factory=list)
    exports: list = field(default_factory=list)
    text: bytes = b""
    initial: bytes = b""
    size: int = 0  # bytes of its globals


class Cut(Exception):
    """The bytes end inside a field."""

    def __init__(self, name):
        super().__init__(name)
        self.name = name


class Image:
    """The fields of an image, as far as its bytes go, and its parts; `cut` says in which field they end. A device is
    its name, kind and base; a shared object its name, base and length; a sealed object the same, its type and bytes; a
    thread its name, stack, entry, priority and frames, in the order of the bytes."""

    def __init__(self, data):
        self.data, self.at, self.fields, self.cut = data, 0, [], None
        self.devices, self.shared, self.sealed, self.owners, self.threads = [], [], [], [], []
        try:
            self.read()
        except Cut as cut:
            self.cut = cut.name

    def take(self, count, name):
        if self.at + count > len(self.data):
            raise Cut(name)
        self.at += count
        piece = self.data[self.at - count:self.at]
        self.fields.append(Field(self.at - count, count, name, piece))
        return piece

    def number(self, name, count=4):
        value = int.from_bytes(self.take(count, name), "little")
        self.fields[-1].value = value
        return value

    def title(self, name):
        text = self.take(NAME_BYTES, name).split(b"\0")[0].decode("ascii", "replace")
        self.fields[-1].value = text
        return text

    def numbers(self, of, *names):
        return [self.number(f"{of}: {name}") for name in names]

    def read(self):
        self.take(4, "begin")
        self.version = self.number("version")
        counts = [self.number("number of " + part) for part in (
            "devices", "shared objects", "sealed objects", "compartments", "libraries", "threads")]
        self.quantum, self.ram, self.size, _, _ = [self.number(name) for name in (
            "quantum", "RAM's base", "RAM's size", "base of the trusted region", "base of the heap")]
        if self.version > 1:
            self.sweep = self.number("sweep rate")
        self.firmware = self.title("firmware's name")
        for index in range(counts[0]):
            name = self.title(f"device {index}: name")
            kind, base = self.numbers(f"device {name}", "kind", "base")
            self.devices.append((name, DEVICES[kind - 1] if 1 <= kind <= 3 else "", base))
        for index in range(counts[1]):
            name = self.title(f"shared object {index}: name")
            self.shared.append((name, *self.numbers(f"shared object {name}", "base", "length")))
        for index in range(counts[2]):
            self.sealed.append(self.sealed_object(index))
        for kind, count in (("compartment", counts[3]), ("library", counts[4])):
            for index in range(count):
                self.owner(kind, index)
        for index in range(counts[5]):
            name = self.title(f"thread {index}: name")
            self.threads.append((name, *self.numbers(
                f"thread {name}", "base of its stack", "length", "compartment that it enters", "export there",
                "priority", "frames")))

    def sealed_object(self, index):
        name = self.title(f"sealed object {index}: name")
        *row, count = self.numbers(f"sealed object {name}", "base", "length", "type", "number of bytes")
        content = self.take(count, f"sealed object {name}: bytes")
        self.take(-count % 4, f"sealed object {name}: padding")
        return name, *row, content

    def owner(self, kind, index):
        owner = Owner(kind, self.title(f"{kind} {index}: name"))
        of, initial = f"{kind} {owner.name}", 0
        owner.base, _, text = self.numbers(of, "base of its code", "length of its code", "bytes of text")
        if kind == "compartment":
            _, _, owner.size, initial = self.numbers(of, "base of its export table", "base of its globals",
                                                     "length of its globals", "initial bytes")
        slots, exports = self.numbers(of, "number of slots", "number of exports")
        for at in range(slots):
            owner.slots.append(self.slot(of, at))
        for at in range(exports):
            owner.exports.append(self.export(of, at))
        owner.text = self.take(text, f"{of}: text")
        owner.initial = self.take(initial, f"{of}: initial bytes")
        self.take(-initial % 4 if kind == "compartment" else 0, f"{of}: padding")
        self.owners.append(owner)

    def slot(self, of, at):
        """A slot's kind, rights, first and second number, and name."""
        of = f"{of}: slot {at}"
        row = [self.number(f"{of}: slot's kind", 1), self.number(f"{of}: rights", 1)]
        self.number(f"{of}: zero byte", 2)
        row += self.numbers(of, "first number", "second number", "third number")[:2]
        return *row, self.title(f"{of}: name")

    def export(self, of, at):
        """An export's offset, stack, arguments, posture and what it passes, and its name."""
        of = f"{of}: export {at}"
        row = self.numbers(of, "offset", "stack")
        row += [self.number(f"{of}: {name}", 1) for name in ("arguments", "posture", "passes", "zero byte")][:3]
        self.number(f"{of}: entry")
        return *row, self.title(f"{of}: name")

    def field_at(self, place):
        """The field in which a byte stands, or None."""
        return next((it for it in self.fields if it.at <= place < it.at + it.count), None)
