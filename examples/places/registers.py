"""Follows registers of a source from line to line: what lint.py warns of in sources."""
from places.assembly import REGISTERS

RA, SP, GP, T1, T2, A0, A5 = 1, 2, 3, 6, 7, 10, 15
KEPT = {SP, GP, 8, 9}
GRANULE = 8
LOSE = {"mv": "cmove", "csw": "csc", "sw": "csc"}
MAKE = ("cimport", "cla", "clg")
DERIVE = ("cmove", "cincaddrimm", "cincaddr", "csetbounds", "csetboundsimm", "csetboundsexact", "csetaddr", "candperm")
ALLOCATES = "allocate", "token_key", "token_new"
STORES = ("sb", "sh", "sw", "csb", "csh", "csw", "csc")
JUMPS, CALLS = ("j", "cret", "cjr"), ("cjal", "jal", "cjalr")
BRANCHES = ("beq", "bne", "blt", "bge", "bltu", "bgeu", "beqz", "bnez")


def arguments_text(count):
    return f"{count} argument{'s' * (count != 1)}"


def operands(statement):
    """The registers of a statement: the one that it writes, or None, and those that it reads."""
    word = statement.word.text
    numbers = [REGISTERS[token.text] for token in statement.operands if token.text in REGISTERS]
    if word == "cret":
        return None, [RA]
    if word in STORES or word in BRANCHES or word == "cjr":
        return None, numbers
    return (numbers[0], numbers[1:]) if numbers else (None, [])


class Reader:
    """Follows a source from line to line."""

    def __init__(self, source, imports, arguments):
        self.source, self.imports, self.arguments = source, imports, arguments
        self.labels, self.found = source.labels(), []

    def warn(self, statement, token, says, *hints):
        self.found.append(self.source.found(statement.line, token, "warning: " + says, *hints))

    def read(self, entries):
        """Looks at each statement, and from the labels of exports on for arguments that never come."""
        self.forget()
        for statement in self.source.statements:
            if statement.label:
                self.forget()
            if statement.word and statement.section == "text":
                self.look(statement)
        for label, count in entries:
            self.enter(label, count)
        return self.found

    def forget(self):
        """What a register holds, and which arguments were set for a call, isn't known any more."""
        self.held, self.data, self.slots, self.given = {SP, GP}, {}, {}, {}

    def look(self, statement):
        word, (to, read) = statement.word.text, operands(statement)
        names = [token for token in statement.operands if token.text in REGISTERS]
        lost = names[0 if word in STORES else -1] if word in LOSE and names else None
        if lost and (REGISTERS[lost.text] in self.held or word == "mv" and lost.text.startswith("ca")):
            self.warn(statement, lost, f"{word} takes the number alone of the capability here",
                      f"{LOSE[word]} takes the capability")
        if word in ("clc", "csc"):
            self.aligned(statement, word)
        for register in read:
            self.given.pop(register, None)
        if word in CALLS and to == RA:
            self.call(statement, read)
        elif word in JUMPS or word in BRANCHES:
            self.given = {}
        elif to is not None:
            self.write(statement, word, to, read)

    def aligned(self, statement, word):
        """A whole capability lies at a multiple of 8."""
        number, base = statement.operands[2], REGISTERS[statement.operands[4].text]
        at = self.data.get(base)
        if at is not None and (at + number.value) % GRANULE:
            self.warn(statement, number, f"{word} wants a multiple of {GRANULE}, and {at + number.value} of the data "
                      "isn't: this traps", f".align {GRANULE} before the label puts it there")

    def write(self, statement, word, to, read):
        """A register is written: whether it holds a capability then."""
        holds = word in MAKE or word in DERIVE and bool(self.held & set(read[:1]))
        self.held = self.held | {to} if holds else self.held - {to}
        self.slots.pop(to, None)
        offset = statement.operands[-1].value if word == "cincaddrimm" else 0
        moved = self.data.get(read[0]) if word in ("cmove", "cincaddrimm") and read else None
        self.data[to] = None if moved is None else moved + offset
        if word == "clg" and statement.operands[2].text in self.labels:
            self.data[to] = self.labels[statement.operands[2].text].at
        if word == "cimport":
            self.slots[to] = statement.operands[2].text
        if A0 <= to <= A5:
            self.given[to] = statement

    def call(self, statement, read):
        """A call: arguments that its export doesn't take, and what is left in registers."""
        target = self.slots.get(read[0]) if read else None
        callee = self.slots.get(T1)
        count = self.arguments.get(self.imports.get(callee)) if target == "switch" else None
        for register, given in self.given.items() if count is not None else ():
            if register - A0 >= count:
                self.warn(given, given.operands[0], f"{self.imports[callee]} takes {arguments_text(count)}, and "
                          "this is one more: it arrives as 0", '"args" of the export says how many')
        answers = target in self.imports and self.imports[target] in ALLOCATES
        self.held = self.held & KEPT | ({A0} if answers else set())
        self.data = {to: at for to, at in self.data.items() if to in KEPT}
        self.slots, self.given = {}, {}

    def enter(self, label, count):
        """The code of an export reads no argument that it doesn't take, before it writes the register."""
        start, written = self.labels.get(label), set()
        if start is None:
            return
        for statement in self.source.statements[self.source.statements.index(start):]:
            if statement.word is None or statement.section != "text":
                continue
            to, read = operands(statement)
            for register in read:
                if A0 + count <= register <= A5 and register not in written:
                    self.warn(statement, statement.word, f"a{register - A0} is read here, and the export at {label} "
                              f"takes {arguments_text(count)}: it is 0")
                    written.add(register)
            written.add(to)
            if statement.word.text in JUMPS + CALLS:
                return
