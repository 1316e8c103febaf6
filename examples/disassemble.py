#!/usr/bin/env python3
"""Writes the text of an image as sources again, by the names of its slots and exports.

    disassemble.py IMAGE            each compartment and library, one behind the other
    disassemble.py IMAGE OWNER      one of them alone, which the assembler takes

Labels are the exports' names; L and digits of an offset for other targets of the text, D and digits for those of the
initial bytes. Behind each statement stand its offset and its words. A word that is no instruction, or has no mnemonic,
is a `.word`. What is written assembles to the same words, whatever the words are (docs/use/image.md, assembler.md).
"""
import sys

sys.dont_write_bytecode = True
import manners  # noqa: E402
from instructions import CAPABILITIES, decoded, joined, loaded  # noqa: E402
from places.images import Image  # noqa: E402
from traces import NAMES  # noqa: E402

COLUMN = 40  # at which the comment begins


class Listing:
    """The statements of an owner's text and of its initial bytes."""

    def __init__(self, owner):
        self.owner = owner
        text = owner.text
        self.words = [int.from_bytes(text[at:at + 4], "little") for at in range(0, len(text) - len(text) % 4, 4)]
        self.rows = [decoded(word) for word in self.words]
        self.targets, self.data_targets = set(), set()
        self.places = set(range(0, len(text) + 1, 4))  # where a label may stand
        for at, row in enumerate(self.rows):
            self.aim(4 * at, row, self.rows[at + 1] if at + 1 < len(self.rows) else None)
        self.names = {}
        for export in owner.exports:
            self.names.setdefault(export[0], []).append(export[-1])

    def aim(self, at, row, following):
        """Notes what a row's target is, of the text or of the initial bytes."""
        pair = joined(row, following)
        if pair and pair[0] == "cla":
            self.targets |= {at + pair[2]} & self.places
        if pair and pair[0] == "clg" and 0 <= pair[2] <= len(self.owner.initial):
            self.data_targets.add(pair[2])
        if row and row[-1][0] == "t":
            self.targets |= {at + row[-1][1]} & self.places

    def label(self, at):
        return self.names[at][0] if at in self.names else f"L{at:04x}"

    def slot_at(self, at, way):
        """The name of the slot that a way leads to, or None."""
        slots = self.owner.slots
        index, rest = divmod(at + way + 8 * len(slots), 8)
        return slots[index][-1] if rest == 0 and 0 <= index < len(slots) else None

    def pair(self, at, row, following):
        """The statement of two words, where they are one and no label stands between them."""
        if at + 4 in self.targets or at + 4 in self.names:
            return None
        value = loaded(row, following)
        if value is not None:
            return f"li {NAMES[row[1][1]]}, {value:#x}"
        told = joined(row, following)
        if told is None:
            return None
        name, rd, way = told
        register = "c" + NAMES[rd[1]] if rd[1] else "cnull"
        if name == "cimport":
            slot = self.slot_at(at, way)
            return f"cimport {register}, {slot}" if slot else None
        if name == "cla":
            return f"cla {register}, {self.label(at + way)}" if at + way in self.targets else None
        return f"clg {register}, D{way:04x}" if way in self.data_targets else None

    def operand(self, name, index, part, at):
        if part[0] == "t":
            return self.label(at + part[1]) if at + part[1] in self.targets else str(part[1])
        if part[0] == "n":
            return f"{part[1]:#x}" if name in ("lui", "auipcc", "auicgp") else str(part[1])
        capability = str(index) in CAPABILITIES.get(name, "")
        register = NAMES[part[-1]]
        register = ("cnull" if register == "zero" else "c" + register) if capability else register
        return register if part[0] == "r" else f"{part[1]}({register})"

    def statement(self, at, row):
        """The statement of one word."""
        if row is None:
            return f".word {self.words[at // 4]:#010x}"
        name, operands = row[0], [self.operand(row[0], index, part, at) for index, part in enumerate(row[1:])]
        plain = f"{name} {', '.join(operands)}".rstrip()
        first = row[1][1] if len(row) > 1 else None
        if row == ("addi", ("r", 0), ("r", 0), ("n", 0)):
            return "nop"
        if name == "addi" and row[2][1] == 0:
            return f"li {operands[0]}, {operands[2]}"
        if name == "addi" and row[3][1] == 0:
            return f"mv {operands[0]}, {operands[1]}"
        if name == "jal" and first == 0:
            return f"j {operands[1]}"
        if name == "cjalr" and row[2][1] == 0:
            base = operands[1].split("(")[1][:-1]
            return ("cret" if base == "cra" else f"cjr {base}") if first == 0 else f"cjalr {operands[0]}, {base}"
        if name in ("beq", "bne") and row[2][1] == 0:
            return f"{name}z {operands[0]}, {operands[2]}"
        return plain

    def text(self):
        """The lines of the text, each with its offset and its words."""
        at = 0
        while at < 4 * len(self.words):
            yield from self.labels(at)
            index = at // 4
            following = self.rows[index + 1] if index + 1 < len(self.rows) else None
            both = self.pair(at, self.rows[index], following)
            count = 2 if both else 1
            words = " ".join(f"{word:08x}" for word in self.words[index:index + count])
            yield f"    {both or self.statement(at, self.rows[index])}".ljust(COLUMN) + f"# {at:04x}: {words}"
            at += 4 * count
        yield from self.labels(at)

    def labels(self, at):
        yield from (f"{name}:" for name in self.names.get(at, []))
        if at in self.targets and at not in self.names:
            yield f"{self.label(at)}:"

    def data(self):
        """The lines of the initial bytes."""
        initial, at = self.owner.initial, 0
        if initial or self.data_targets:
            yield ".data"
        while at <= len(initial):
            if at in self.data_targets:
                yield f"D{at:04x}:"
            whole = at % 4 == 0 and at + 4 <= len(initial) and not {at + 1, at + 2, at + 3} & self.data_targets
            count = 4 if whole else 1
            if at < len(initial):
                value = int.from_bytes(initial[at:at + count], "little")
                yield f"    {'.word' if whole else '.byte'} {value:#x}".ljust(COLUMN) + f"# {at:04x}"
            at += count

    def lines(self):
        yield from self.text()
        yield from self.data()


def main(words):
    parser = manners.Words(__doc__)
    parser.add_argument("image")
    parser.add_argument("owner", nargs="?")
    options = parser.parse_args(words)
    image = Image(manners.bytes_in(options.image))
    if image.cut:
        raise manners.Refusal(f"{options.image}: no whole image: the bytes end inside this field: {image.cut}")
    owners = [owner for owner in image.owners if options.owner in (None, owner.name)]
    if not owners:
        raise manners.Refusal(f"no owner {options.owner}: there are {', '.join(owner.name for owner in image.owners)}")
    for number, owner in enumerate(owners):
        if options.owner is None:
            slots = ", ".join(slot[-1] for slot in owner.slots) or "none"
            at = owner.base + 8 * len(owner.slots)
            print("\n" * bool(number) + f"# {owner.kind} {owner.name}, its text at {at:08x}")
            print(f"# slots: {slots}")
        print("\n".join(Listing(owner).lines()))


if __name__ == "__main__":
    manners.run(main)
