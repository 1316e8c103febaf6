"""A firmware as the plain machine of the tests links and runs it, with the places of its sources and its steps.

The plain machine is written apart from the program and nothing of it is proved; the gate compares its runs with the
program's. It takes descriptions and images that `capfw audit` and `capfw runimage` accept.
"""
import collections
import json
import os
import sys

sys.path.append(os.path.join(os.path.dirname(os.path.abspath(__file__)), "..", "tests"))
from model import assembler, images, linker, reports as reference  # noqa: E402
from model.heap import HeapMachine  # noqa: E402
from manners import Refusal, bytes_in, text_in  # noqa: E402
from reports import Report  # noqa: E402

MAGIC = b"CTFW"
NATIVE, NATIVE_BYTES = 65536, 16
ROUTINES = ("switch return yield sleep wait wake allocate free remaining token_key token_new token_open "
            "token_free").split()

# A word of a text: its owner, the label before it and how far behind, and the line of the source that it is of.
Place = collections.namedtuple("Place", "owner label offset file line statement")
Symbol = collections.namedtuple("Symbol", "address owner label section file line")


def place_name(place):
    """A place by its label."""
    return place.label + (f"+{place.offset}" if place.offset else "")


def refuse(message):
    raise Refusal(message)


# ---- the places of a source

def marked(lines):
    """The lines with a label of its own before each and behind the last, and the labels by their lines' numbers."""
    mark = "_"
    while any(mark + "line" in line for line in lines):
        mark += "_"
    marks = [f"{mark}line{number}" for number in range(len(lines) + 1)]
    return [part for mark, line in zip(marks, lines) for part in (mark + ":", line)] + [marks[-1] + ":"], marks


def statement_of(line):
    """A line without its comment and its label."""
    bare = line.split("#")[0].strip()
    head, colon, tail = bare.partition(":")
    return tail.strip() if colon and head.strip().isidentifier() else bare


def source_places(lines):
    """Of each line its section and the offsets where it begins and ends there; and the source's own labels."""
    parts, marks = marked(lines)
    _, labels, _ = assembler.split(parts)
    rows = [labels.pop(mark) for mark in marks]
    return [(*here, there[1] if there[0] == here[0] else here[1]) for here, there in zip(rows, rows[1:])], labels


class Firmware:
    """A linked firmware: its image, report, places by address, and symbols by address."""

    def __init__(self, data, description=None, sources=None):
        self.image, self.report = images.read(data), Report(reference.report(data))
        self.places, self.symbols = {}, []
        rows = [] if description is None else description.get("compartments", []) + description.get("libraries", [])
        for n, owner in enumerate(self.image.owners + self.image.libraries):
            file = rows[n]["code"].get("file") if rows else None
            text = owner.base + 8 * len(owner.slots)
            if file is None:
                self.place_words(owner, text)
            else:
                self.place_source(owner, text, file, sources[file])
        self.symbols.sort()

    def place_words(self, owner, text):
        """Places of a text without a source: its labels are its exports."""
        name = reference.word(owner.name)
        labels = {int.from_bytes(row[:4], "little"): reference.word(field) for _, row, field in owner.exports}
        self.symbols += [Symbol(text + at, name, label, "text", "", 0) for at, label in labels.items()]
        label, start = "text", 0
        for at in range(0, len(owner.text), 4):
            label, start = (labels[at], at) if at in labels else (label, start)
            self.places[text + at] = Place(name, label, at - start, "", 0, "")

    def place_source(self, owner, text, file, lines):
        """Places of a text by the lines of its source."""
        name = reference.word(owner.name)
        rows, labels = source_places(lines)
        starts = {at: label for label, (section, at) in labels.items() if section == "text"}
        for label, (section, at) in labels.items():
            line = next(n for n, line in enumerate(lines, 1) if line.split("#")[0].split(":")[0].strip() == label)
            base = text if section == "text" else owner.globals
            self.symbols.append(Symbol(base + at, name, label, section, file, line))
        label, start = "text", 0
        for number, (section, begin, end) in enumerate(rows, 1):
            for at in range(begin, end, 4) if section == "text" else ():
                label, start = (starts[at], at) if at in starts else (label, start)
                self.places[text + at] = Place(name, label, at - start, file, number, statement_of(lines[number - 1]))

    def place_at(self, address):
        """Where an address is: a place of a text, or the name of a native routine, or none."""
        routine, rest = divmod(address - NATIVE, NATIVE_BYTES)
        if rest == 0 and 0 <= routine < len(ROUTINES):
            return Place("", f"<{ROUTINES[routine]}>", 0, "", 0, "")
        return self.places.get(address)


def firmware_of(path, read=text_in):
    """The firmware of a description or an image in a file; sources count from the folder of the call."""
    data = bytes_in(path)
    try:
        if data.startswith(MAGIC):
            return Firmware(data)
        description = json.loads(data)
        owners = description.get("compartments", []) + description.get("libraries", [])
        sources = {owner["code"]["file"]: read(owner["code"]["file"]).split("\n")
                   for owner in owners if "file" in owner["code"]}
        return Firmware(linker.link(description, sources), description, sources)
    except (ArithmeticError, AssertionError, AttributeError, LookupError, TypeError, ValueError):
        refuse(f"{path}: not linked; `capfw audit {path}` says what is wrong with it")


def inputs_of(firmware, text):
    """The rows of a script: a step, a device's index and a byte."""
    names = [device["name"] for device in firmware.report.devices]
    try:
        return [(int(step), names.index(name), int(byte)) for step, name, byte in map(str.split, text.splitlines())]
    except ValueError:
        refuse("not a script: `capfw run` says which line is wrong")


# ---- a run, step by step

Moment = collections.namedtuple("Moment", "thread actor depth pcc registers frame handling")


class Watched(HeapMachine):
    """The plain machine, which tells a watcher before each step which thread runs it and from what state, and after it
    what was told. A watcher has `before(machine, moment)` and `after(machine, moment, lines)`; a step in which no
    thread runs has no moment. Lines are those of `run`, with the step's number. `keys` has each key and token by its
    object's number: the number of its key, and 0 for a key."""

    def __init__(self, image, watcher):
        super().__init__(image)
        self.watcher, self.moment, self.keys = watcher, None, {}

    def moment_of(self, t):
        thread = self.threads[t]
        frame = thread.frames[-1]
        return Moment(t, self.actor(t), len(thread.frames), thread.pcc, list(thread.regs), frame, frame.handling)

    def execute(self, t):
        self.moment = self.moment_of(t)
        self.watcher.before(self, self.moment)
        return super().execute(t)

    def step(self):
        self.moment = None
        lines = super().step()
        self.watcher.after(self, self.moment, [f"{self.count['steps']} {line}" for line in lines])
        return lines

    def allocate(self, t, quota, size, key=None):
        told = super().allocate(t, quota, size, key)
        if told and key is not None:
            self.keys[self.count["allocations"]] = key
        return told

    def input(self, n, byte):
        super().input(n, byte)
        self.watcher.came(self, n, byte)


def run(firmware, limit, inputs, watcher):
    """The lines of a run, which a watcher watches."""
    return Watched(firmware.image, watcher).run(limit, firmware.image.quantum, inputs)
