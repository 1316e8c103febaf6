"""Sources: tokens with their places, the forms of statements, and the first fault A1 to A8 (docs/use/assembler.md)."""
import re
from dataclasses import dataclass

from places.texts import Found, meant

MOST_BYTES = 1_048_576
BRANCH_REACH, JUMP_REACH = 4096, 1_048_576
REGISTERS = {}
for number, word in enumerate("zero ra sp gp tp t0 t1 t2 s0 s1 a0 a1 a2 a3 a4 a5".split()):
    REGISTERS.update({word: number, "c" + word: number})
for number in range(32):
    REGISTERS.update({f"c{number}": number, f"x{number}": number})
REGISTERS["cnull"] = 0
del REGISTERS["czero"]

# Forms of operands: a register, a number, a target (a label or a number), a name, and the marks.
PARTS = {"R": "a register", "N": "a number", "T": "a label or a number of bytes", "L": "a name", ",": "a comma",
         "(": "an opening bracket", ")": "a closing bracket"}
WORDS_OF_FORMS = {
    "R,R,R": "add sub sll slt sltu xor srl sra or and mul mulh mulhsu mulhu div divu rem remu csetbounds "
             "csetboundsexact cseal cunseal candperm csetaddr cincaddr csub csethigh ctestsubset csetequalexact",
    "R,R,N": "addi slti sltiu xori ori andi cincaddrimm slli srli srai csetboundsimm",
    "R,N": "lui auipcc auicgp li",
    "R,N(R)": "lb lh lw lbu lhu clb clh clw clbu clhu clc sb sh sw csb csh csw csc cjalr",
    "R,R": "cjalr cgetperm cgettype cgetbase cgetlen cgettag crrl cram cmove ccleartag cgetaddr cgethigh cgettop mv",
    "R,R,T": "beq bne blt bge bltu bgeu",
    "R,T": "jal cjal beqz bnez",
    "T": "j",
    "R": "cjr",
    "R,L": "cimport cla clg",
    "": "fence ecall ebreak nop cret",
}
FORMS = {}
for form, listed in WORDS_OF_FORMS.items():
    for word in listed.split():
        FORMS.setdefault(word, []).append(form)
DIRECTIVES = {".text": "", ".data": "", ".word": "N", ".byte": "N", ".zero": "N", ".align": "N"}
DATA_ALONE = (".byte", ".zero", ".align")

# The least and the greatest number of a statement; a directive's or an instruction's last number.
SIGNED_12 = (-2048, 2047)
RANGES = {".word": (-2 ** 31, 2 ** 32 - 1), ".byte": (-128, 255), ".zero": (0, MOST_BYTES), ".align": (1, 4096),
          "csetboundsimm": (0, 4095), "li": (-2 ** 31, 2 ** 32 - 1)}
RANGES.update(dict.fromkeys(("slli", "srli", "srai"), (0, 31)))
RANGES.update(dict.fromkeys(("lui", "auipcc", "auicgp"), (-2 ** 19, 2 ** 20 - 1)))
REACHES = dict.fromkeys("beq bne blt bge bltu bgeu beqz bnez".split(), BRANCH_REACH)
REACHES.update(dict.fromkeys("jal cjal j".split(), JUMP_REACH))

# What other assemblers write, and what is written here.
ELSEWHERE = {
    "ret": "cret", "jr": "cjr rs", "jalr": "cjalr rd, n(rs)", "la": "cla rd, label (text) or clg rd, label (data)",
    "lla": "cla rd, label", "call": "cjal cra, label; of an import cimport ct2, name and cjalr cra, ct2",
    "tail": "j label", "lc": "clc", "sc": "csc", "clcbase": "clc", "cscbase": "csc",
    "neg": "sub rd, zero, rs", "not": "xori rd, rs, -1", "seqz": "sltiu rd, rs, 1", "snez": "sltu rd, zero, rs",
    "blez": "bge zero, rs, label", "bgez": "bge rs, zero, label", "bltz": "blt rs, zero, label",
    "bgtz": "blt zero, rs, label", "bgt": "blt with its registers exchanged", "ble": "bge with its registers exchanged",
    "cincoffset": "cincaddr, with a number cincaddrimm", "cincoffsetimm": "cincaddrimm",
    "cgetoffset": "cgetaddr, cgetbase and sub", "csetoffset": "csetaddr", "auipc": "auipcc", "cllc": "cla",
    "csr": ".word with the instruction's word",
    "csrr": ".word with the instruction's word", "csrw": ".word with the instruction's word",
    "cspecialrw": ".word with the instruction's word", ".half": ".byte twice", ".ascii": ".byte for each character",
    ".asciz": ".byte for each character, and .byte 0", ".string": ".byte for each character, and .byte 0",
    ".section": ".text or .data", ".globl": "nothing: an export names its label",
    ".global": "nothing: an export names its label", ".equ": "the number itself, or have cpp -P put it in",
    ".set": "the number itself, or have cpp -P put it in", ".macro": "the lines themselves, or have cpp -P put them in",
    ".space": ".zero", ".skip": ".zero", ".p2align": ".align with the number of bytes", ".balign": ".align",
    ".long": ".word", ".rodata": ".data", ".bss": ".data"}


# The instruction with a number in the place of the last register.
WITH_NUMBER = {word: word + "i" for word in "add slt xor or and sll srl sra".split()}
WITH_NUMBER.update({"sltu": "sltiu", "csetbounds": "csetboundsimm", "cincaddr": "cincaddrimm"})


@dataclass
class Token:
    """A piece of a line: its text and where it begins and ends in the line, from 0."""
    text: str
    start: int
    end: int

    @property
    def is_name(self):
        return re.match("[A-Za-z_]", self.text) is not None

    @property
    def is_number(self):
        return re.match("[0-9-]", self.text) is not None

    @property
    def value(self):
        return int(self.text[2:], 16) if self.text.startswith("0x") else int(self.text)


class Fault(Exception):
    """A fault of a line: its number, the range in the line, why, and hints."""

    def __init__(self, number, start, end, says, *hints):
        super().__init__(says)
        self.number, self.start, self.end, self.says, self.hints = number, start, end, says, list(hints)


def of_token(number, token, says, *hints):
    return Fault(number, token.start, token.end, says, *hints)


# ---- tokens

def stray(piece):
    """Where a piece stops being a token, and why; None where it is one."""
    if piece in ",:()":
        return None
    name = re.match(r"\.?[A-Za-z_][A-Za-z0-9_]*", piece)
    if name:
        if name.end() < len(piece):
            return name.end(), "a name goes on with letters, digits and _"
        return (0, "a name has at most 64 characters") if len(name.group().lstrip(".")) > 64 else None
    number = re.match("0x[0-9a-fA-F]+|-?[0-9]+", piece)
    if number is None or number.end() < len(piece):
        begun = re.match(r"0x|\.|-?[0-9]*", piece).group()
        end = number.end() if number else min(len(begun), len(piece) - 1)
        return end, "no number and no name is written so"
    value = Token(piece, 0, 0).value
    return None if -2 ** 127 <= value < 2 ** 128 else (0, "the number doesn't fit 128 bits")


def hint_of(piece, at):
    character = piece[at]
    comment, value = "a comment begins with #", "a character is written as its number, such as 65"
    computed = "nothing is computed here: write the number"
    hints = {"\r": "a carriage return: store the file with the line ends of Unix", "/": comment, "@": comment,
             ";": "a line holds one statement, and a comment begins with #", "'": value, '"': value, "+": computed,
             "*": computed, "%": "cla and clg take the place of %hi and %lo", "X": "write 0x with a small x"}
    if re.match("-0x", piece):
        return ["hexadecimal numbers have no sign: write it in decimal"]
    if re.fullmatch("[0-9]+[bf]", piece):
        return ["a label is a name: it begins with a letter or _"]
    if character == "-" and at:
        return [computed]
    return [hints[character]] if character in hints else []


def tokens(line):
    """The tokens of a line; a fault A1 where it has none."""
    code = line.split("#")[0]
    faults = []
    for match in re.finditer(r"[,:()]|[^ \t,:()]+", code):
        wrong = stray(match.group())
        if wrong:
            at, why = wrong
            faults.append(Fault(1, match.start() + at, match.end(), why, *hint_of(match.group(), at)))
    for match in re.finditer("[^\0-\x7f]+", line):
        faults.append(Fault(1, match.start(), match.end(), "a source is ASCII throughout, its comments too"))
    if faults:
        raise min(faults, key=lambda fault: fault.start)
    return [Token(match.group(), match.start(), match.end()) for match in re.finditer(r"[,:()]|[^ \t,:()]+", code)]


# ---- statements

@dataclass
class Statement:
    """A line's label, its first word and operands, and where it stands: its line, section and offset."""
    line: int
    label: Token
    word: Token
    operands: list
    section: str
    at: int = 0


def fits(part, token):
    if part == "R":
        return token.text in REGISTERS
    if part == "N":
        return token.is_number
    if part == "T":
        return token.is_name or token.is_number
    return token.is_name if part == "L" else token.text == part


def agreed(form, operands):
    """How many operands, marks among them, are as a form has them."""
    count = 0
    while count < min(len(form), len(operands)) and fits(form[count], operands[count]):
        count += 1
    return count


def written(word, form):
    names = iter(("rs2", "rs1") if word in ("sb", "sh", "sw", "csb", "csh", "csw", "csc") else
                 ("rs1", "rs2", "") if word in REACHES and form.startswith("R,R") else
                 ("rs",) if word in ("beqz", "bnez", "cjr") else ("rd", "rs1", "rs2"))
    words = {"R": lambda: next(names), "N": lambda: "N", "T": lambda: "target", "L": lambda: "name", ",": lambda: ", "}
    return f"{word} {''.join(words.get(part, lambda part=part: part)() for part in form)}".rstrip()


# Registers that other machines of this family have, and this one hasn't.
OTHER_REGISTERS = re.compile("c?(a[67]|s([2-9]|1[01])|t[3-6])")


def exchanged(word, part, token):
    """A hint where a number stands for a register, or a register for a number, or one that the machine hasn't."""
    if part == "R" and token.is_name and OTHER_REGISTERS.fullmatch(token.text):
        return ["the machine has a0 to a5, s0, s1 and t0 to t2, beside zero, ra, sp, gp and tp"]
    with_register = {other: name for name, other in WITH_NUMBER.items()}
    if part == "R" and token.is_number and word in WITH_NUMBER:
        return [f"{WITH_NUMBER[word]} takes a number"]
    if part == "N" and token.is_name and word in with_register:
        return [f"{with_register[word]} takes a register"]
    return []


def known_form(statement):
    """A statement whose operands are of a form, or the fault A3 at the first token that isn't."""
    word, operands = statement.word, statement.operands
    forms = [DIRECTIVES[word.text]] if word.text in DIRECTIVES else FORMS[word.text]
    form = max(forms, key=lambda form: agreed(form, operands))
    count = agreed(form, operands)
    hints = ["written " + " or ".join(written(word.text, form) for form in forms)]
    if count < len(form):
        wanted = PARTS[form[count]]
        if count == len(operands):
            end = operands[-1].end if operands else word.end
            raise Fault(3, end, end + 1, f"{wanted} is missing here", *hints)
        hints += exchanged(word.text, form[count], operands[count])
        raise of_token(3, operands[count], f"{wanted} is wanted here", *hints)
    if count < len(operands):
        raise of_token(3, operands[count], "nothing more may stand here", *hints)
    if statement.section == "data" and not word.text.startswith("."):
        raise of_token(3, word, "instructions stand in the text", "a line .text before it leads back to the text")
    if statement.section == "text" and word.text in DATA_ALONE:
        raise of_token(3, word, f"{word.text} stands in the data", "a line .data before it leads there")
    return form


def numbers(statement, form):
    """Fault A4 of a number that is out of its range."""
    word = statement.word.text
    for part, token in zip(form, statement.operands):
        if part == "T" and token.is_number:
            reach = REACHES[word]
            if not -reach <= token.value <= reach - 2 or token.value % 2:
                raise of_token(4, token, f"an even number of bytes from {-reach} to {reach - 2} is wanted")
        if part == "N":
            low, high = RANGES.get(word, SIGNED_12)
            if not low <= token.value <= high:
                hints = ["li loads any number of 32 bits into a register"] if (low, high) == SIGNED_12 else []
                raise of_token(4, token, f"{low} to {high} is wanted", *hints)
            if word == ".align" and 4096 % token.value:
                raise of_token(4, token, "1 or a power of two up to 4096 is wanted")


def registers(statement, form):
    for part, token in zip(form, statement.operands):
        if part == "R" and REGISTERS[token.text] > 15:
            raise of_token(7, token, "the machine has the registers c0 to c15")


def unknown(word):
    """Fault A2: what a first word was meant to be."""
    text = word.text.lower()
    if text in ELSEWHERE:
        return of_token(2, word, f"{word.text} isn't known here", f"write {ELSEWHERE[text]}")
    if text != word.text and text in (*FORMS, *DIRECTIVES):
        return of_token(2, word, "mnemonics and directives are lower-case", f'did you mean "{text}"?')
    if not word.is_name and not word.text.startswith("."):
        return of_token(2, word, "a statement begins with a mnemonic or a directive")
    known = DIRECTIVES if word.text.startswith(".") else FORMS
    return of_token(2, word, "no mnemonic, pseudo instruction or directive",
                    *meant(word.text, known, "directives" if known is DIRECTIVES else None))


def statement_of(number, line, section):
    """The statement of a line, and its form."""
    row = tokens(line)
    label = None
    if len(row) > 1 and row[0].is_name and row[1].text == ":":
        label, row = row[0], row[2:]
    word = row[0] if row else None
    statement = Statement(number, label, word, row[1:], section)
    if word is None:
        return statement, ""
    if word.text not in FORMS and word.text not in DIRECTIVES:
        if label and len(row) > 1 and row[1].text == ":":
            raise of_token(2, word, "a line holds one label", "give this label a line of its own")
        raise unknown(word)
    return statement, known_form(statement)


# ---- sources

def size(statement):
    """How many bytes a statement has at its place."""
    word = statement.word.text if statement.word else ".text"
    if word in (".text", ".data"):
        return 0
    if word in DATA_ALONE:
        value = statement.operands[0].value
        return {".byte": 1, ".zero": value, ".align": -statement.at % value if value else 0}[word]
    if word == "li":
        return 4 if (statement.operands[2].value + 2048) % 2 ** 32 < 4096 else 8
    return 8 if word in ("cimport", "cla", "clg") else 4


class Source:
    """A source's text and its statements, up to the first line that is none."""

    def __init__(self, text):
        self.text, self.statements, self.fault = text, [], None
        section, ends = "text", {"text": 0, "data": 0}
        for number, line in enumerate(text.lines(), 1):
            try:
                statement, form = statement_of(number, line, section)
                statement.at = ends[section]
                self.statements.append(statement)
                if statement.word is None:
                    continue
                numbers(statement, form)
                registers(statement, form)
            except Fault as fault:
                self.fault = (number, fault)
                return
            if statement.word.text in (".text", ".data"):
                section = statement.word.text[1:]
            ends[section] += size(statement) if statement.word.text not in (".text", ".data") else 0
        self.sizes = ends

    def labels(self):
        """The first label of each name."""
        out = {}
        for statement in self.statements:
            if statement.label:
                out.setdefault(statement.label.text, statement)
        return out

    def found(self, number, token, says, *hints):
        """What is found at a token of a line."""
        start = self.text.at(number, token.start + 1)
        return Found(self.text, start, start + token.end - token.start, "", says, list(hints))

    def undeclared(self, slots):
        """The first `cimport` of a name that is no slot."""
        for statement in self.statements:
            if statement.word and statement.word.text == "cimport" and statement.operands[2].text not in slots:
                return statement
        return None

    def labelled(self, statement, labels):
        """The fault A4, A5 or A6 of a statement's label or of what it refers to: the least number."""
        label, word, faults = statement.label, statement.word, []
        if label and labels[label.text] is not statement:
            line = labels[label.text].line
            faults.append(of_token(5, label, "a label that stands twice", f"before it in line {line}"))
        forms = FORMS.get(word.text, []) if word else []
        form = next((form for form in forms if agreed(form, statement.operands) == len(form)), "")
        for part, token in zip(form, statement.operands):
            if part == "T" and token.is_name or part == "L" and word.text in ("cla", "clg"):
                faults.append(self.referred(statement, token, labels))
        return min(filter(None, faults), key=lambda fault: fault.number, default=None)

    def referred(self, statement, token, labels):
        word, section = statement.word.text, "data" if statement.word.text == "clg" else "text"
        target = labels.get(token.text)
        if target is None:
            names = [name for name, other in labels.items() if other.section == section]
            return of_token(6, token, "this label isn't there", *meant(token.text, names, f"labels of the {section}"))
        if target.section != section:
            other = "cla" if word == "clg" else "clg"
            hints = [f"{other} takes one of the {target.section}"] if word in ("cla", "clg") else []
            return of_token(6, token, f"{word} wants a label of the {section}", *hints,
                            f"it stands in the {target.section}, in line {target.line}")
        way = target.at - statement.at
        reach = REACHES.get(word)
        if reach and (not -reach <= way <= reach - 2 or way % 2):
            hints = ["the other way round over a jump: j reaches 1 MiB"] if reach == BRANCH_REACH else []
            return of_token(4, token, f"the label is {way} bytes away, {-reach} to {reach - 2} are in reach", *hints)
        return None

    def assembled(self):
        """The first fault of labels and sizes: its line and the fault."""
        labels = self.labels()
        for statement in self.statements:
            fault = self.labelled(statement, labels)
            end = statement.at + (size(statement) if statement.word else 0)
            if fault is None and end > MOST_BYTES:
                fault = of_token(8, statement.word, f"the {statement.section} ends at {end}, and may at {MOST_BYTES}")
            if fault:
                return statement.line, fault
        return None


def explained(source, number, fault):
    token = Token("", fault.start, fault.end)
    return f"A{fault.number}", number, source.found(number, token, f"A{fault.number}: {fault.says}", *fault.hints)


def first(text, slots):
    """The fault of a source whose slots have these names: its number, its line, and what is found there."""
    source = Source(text)
    if source.fault:
        return explained(source, *source.fault)
    missing = source.undeclared(slots)
    if missing:
        token = missing.operands[2]
        return "L3", missing.line, source.found(missing.line, token, "L3: this import isn't declared",
                                                *(meant(token.text, slots, "declared") or ["nothing is declared"]))
    fault = source.assembled()
    return explained(source, *fault) if fault else None
