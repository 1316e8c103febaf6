"""Words of a text as instructions, by docs/use/assembler.md and the profile of the instruction words."""
UP = 2048  # bytes that one step of auipcc and auicgp counts

# Instructions by opcode and funct3; where that isn't all, by funct7 or by the field of the second register.
INTEGER = {(0, 0): "add", (0, 0x20): "sub", (1, 0): "sll", (2, 0): "slt", (3, 0): "sltu", (4, 0): "xor", (5, 0): "srl",
           (5, 0x20): "sra", (6, 0): "or", (7, 0): "and"}
INTEGER.update({(at, 1): name for at, name in enumerate("mul mulh mulhsu mulhu div divu rem remu".split())})
IMMEDIATE = {0: "addi", 2: "slti", 3: "sltiu", 4: "xori", 6: "ori", 7: "andi"}
SHIFTS = {(1, 0): "slli", (5, 0): "srli", (5, 0x20): "srai"}
LOADS = {0: "clb", 1: "clh", 2: "clw", 3: "clc", 4: "clbu", 5: "clhu"}
STORES = {0: "csb", 1: "csh", 2: "csw", 3: "csc"}
BRANCHES = {0: "beq", 1: "bne", 4: "blt", 5: "bge", 6: "bltu", 7: "bgeu"}
UPPER = {0x37: "lui", 0x17: "auipcc", 0x7B: "auicgp"}
TWO = {0x08: "csetbounds", 0x09: "csetboundsexact", 0x0B: "cseal", 0x0C: "cunseal", 0x0D: "candperm", 0x10: "csetaddr",
       0x11: "cincaddr", 0x14: "csub", 0x16: "csethigh", 0x20: "ctestsubset", 0x21: "csetequalexact"}
ONE = {0x00: "cgetperm", 0x01: "cgettype", 0x02: "cgetbase", 0x03: "cgetlen", 0x04: "cgettag", 0x08: "crrl",
       0x09: "cram", 0x0A: "cmove", 0x0B: "ccleartag", 0x0F: "cgetaddr", 0x17: "cgethigh", 0x18: "cgettop"}
# The operands that are capabilities, by their places: their registers are written with a `c`.
PLACES = {
    "0": "auipcc auicgp jal",
    "1": "cgetperm cgettype cgetbase cgetlen cgettag cgetaddr cgethigh cgettop "
         "clb clh clw clbu clhu csb csh csw",
    "01": "cmove ccleartag csetbounds csetboundsexact candperm csetaddr cincaddr csethigh cincaddrimm csetboundsimm "
          "clc csc cjalr",
    "12": "csub ctestsubset csetequalexact",
    "012": "cseal cunseal"}
CAPABILITIES = {name: places for places, listed in PLACES.items() for name in listed.split()}


def signed(value, bits):
    value &= 2 ** bits - 1
    return value - 2 ** bits if value >> bits - 1 else value


class Word:
    """The fields of a word."""

    def __init__(self, word):
        self.word, self.opcode, self.funct3, self.funct7 = word, word & 127, word >> 12 & 7, word >> 25
        self.rd, self.rs1, self.rs2 = word >> 7 & 31, word >> 15 & 31, word >> 20 & 31
        self.immediate = signed(word >> 20, 12)
        self.store = signed((word >> 25) << 5 | self.rd, 12)
        self.branch = signed((word >> 31) << 12 | (word >> 7 & 1) << 11 | (word >> 25 & 63) << 5 |
                             (word >> 8 & 15) << 1, 13)
        self.jump = signed((word >> 31) << 20 | (word >> 12 & 255) << 12 | (word >> 20 & 1) << 11 |
                           (word >> 21 & 1023) << 1, 21)
        self.upper = word >> 12


def decoded(word):
    """The mnemonic of a word and its operands: registers, numbers, or a way to a target; None where it has none.

    A register is ("r", number), a number ("n", number), a number before a register in brackets
    ("a", number, register), a way ("t", number of bytes).
    """
    w = Word(word)
    register = lambda number: ("r", number)  # noqa: E731
    found = None
    if w.opcode in UPPER:
        found = UPPER[w.opcode], register(w.rd), ("n", w.upper)
    elif w.opcode == 0x6F:
        found = "jal", register(w.rd), ("t", w.jump)
    elif w.opcode == 0x67 and w.funct3 == 0:
        found = "cjalr", register(w.rd), ("a", w.immediate, w.rs1)
    elif w.opcode == 0x63 and w.funct3 in BRANCHES:
        found = BRANCHES[w.funct3], register(w.rs1), register(w.rs2), ("t", w.branch)
    elif w.opcode == 0x03 and w.funct3 in LOADS:
        found = LOADS[w.funct3], register(w.rd), ("a", w.immediate, w.rs1)
    elif w.opcode == 0x23 and w.funct3 in STORES:
        found = STORES[w.funct3], register(w.rs2), ("a", w.store, w.rs1)
    elif w.opcode in (0x13, 0x33, 0x5B):
        found = computed(w, register)
    elif word in (0x0F, 0x73, 0x100073):
        found = ({0x0F: "fence", 0x73: "ecall", 0x100073: "ebreak"}[word],)
    registers = [part[-1] for part in (found or ())[1:] if part[0] in "ra"]
    return found if found and all(number < 16 for number in registers) else None


def computed(w, register):
    """Of the opcodes that compute, those with an immediate and those with registers alone."""
    rd, rs1, rs2 = register(w.rd), register(w.rs1), register(w.rs2)
    if w.opcode == 0x13:
        if w.funct3 in IMMEDIATE:
            return IMMEDIATE[w.funct3], rd, rs1, ("n", w.immediate)
        name = SHIFTS.get((w.funct3, w.funct7))
        return (name, rd, rs1, ("n", w.rs2)) if name else None
    if w.opcode == 0x33:
        name = INTEGER.get((w.funct3, w.funct7))
        return (name, rd, rs1, rs2) if name else None
    if w.funct3 == 1:
        return "cincaddrimm", rd, rs1, ("n", w.immediate)
    if w.funct3 == 2:
        return "csetboundsimm", rd, rs1, ("n", w.immediate % 4096)
    if w.funct3 == 0 and w.funct7 == 0x7F:
        return (ONE[w.rs2], rd, rs1) if w.rs2 in ONE else None
    return (TWO[w.funct7], rd, rs1, rs2) if w.funct3 == 0 and w.funct7 in TWO else None


# ---- two words that are one statement

def halves(way):
    """What an upper word and the one behind it hold for a way of so many bytes."""
    high = abs(way) // UP * (-1 if way < 0 else 1)
    return high % 2 ** 20, way - UP * high


def joined(first, second):
    """The way that two words lead, where they are the two of `cimport`, `cla` or `clg`: the statement and its way."""
    if not first or not second or first[0] not in ("auipcc", "auicgp"):
        return None
    rd, high = first[1], signed(first[2][1], 20)
    if second[0] == "clc" and first[0] == "auipcc":
        low, fits = second[2][1], second[1] == rd and second[2][2] == rd[1]
        name = "cimport"
    elif second[0] == "cincaddrimm":
        low, fits = second[3][1], second[1] == second[2] == rd
        name = "cla" if first[0] == "auipcc" else "clg"
    else:
        return None
    way = UP * high + low
    return (name, rd, way) if fits and halves(way) == (first[2][1], low) else None


def loaded(first, second):
    """The number that two words load, where they are the two of `li`."""
    if not first or not second or first[0] != "lui" or second[0] != "addi" or not second[1] == second[2] == first[1]:
        return None
    low = second[3][1]
    value = ((first[2][1] << 12) + low) % 2 ** 32
    return value if not -2048 <= signed(value, 32) <= 2047 else None
