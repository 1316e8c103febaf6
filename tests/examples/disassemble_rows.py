#!/usr/bin/env python3
"""Holds disassemble.py against the assembler, the linker and the machine of tests/model, which are written apart.

    disassemble_rows.py          tries all of this
    disassemble_rows.py DESC     writes the image of a description in this folder, by the linker alone

- Each firmware (the samples, the one that mistakes are planted in, those of the tables, a demo) is linked, its text
  disassembled, and linked again of the sources that come out: the image must be the same, byte for byte.
- Each mnemonic is assembled with several operands, disassembled as itself or as its pseudo, and assembled again.
- Words of every opcode, and texts of random words, are disassembled and assembled again to the same words; a word is a
  `.word` exactly where the machine says that it is no instruction, or where it has no mnemonic.

Status 0: nothing differs. Status 1: what differs is printed.
"""
import copy
import glob
import json
import os
import random
import sys
import tempfile

sys.dont_write_bytecode = True
from paths import HERE, SAMPLES  # noqa: E402
from disassemble import Listing, decoded  # noqa: E402
from model import images, machine  # noqa: E402
from model.assembler import assemble  # noqa: E402
from model.demo import firmware as demo  # noqa: E402
from model.heap import HeapMachine  # noqa: E402
from model.linker import link  # noqa: E402
from places.assembly import DIRECTIVES, FORMS  # noqa: E402
from places.images import Image, Owner  # noqa: E402

SEED, TEXTS, WORDS = 5, 8, 2048
REGISTERS_ABOVE = 1 << 19 | 1 << 11 | 127  # bits of a word for registers above 15, and its opcode
ILLEGAL = 2  # the cause of a trap by what is no instruction
MNEMONICS = [word for word in FORMS if word not in DIRECTIVES]
# Two mnemonics of one word: the one that is written, and the one that comes out.
SAME = {"lb": "clb", "lh": "clh", "lw": "clw", "lbu": "clbu", "lhu": "clhu", "sb": "csb", "sh": "csh", "sw": "csw",
        "cjal": "jal"}


# ---- firmwares

def again(name, firmware, sources):
    """What differs where a firmware is linked of what its image is disassembled to."""
    data = link(firmware, sources)
    owners = Image(data).owners
    other, texts = copy.deepcopy(firmware), {}
    for owner, listed in zip(other["compartments"] + other.get("libraries", []), owners):
        texts[owner["name"]] = list(Listing(listed).lines())
        owner["code"] = {"file": owner["name"]}
        for export in owner.get("exports", []):
            export["at"] = export["name"]
    return None if link(other, texts) == data else f"{name}: the image differs"


def lines_of(folder, file):
    with open(os.path.join(folder, file), encoding="utf-8") as opened:
        return opened.read().split("\n")


def in_file(path):
    """A description and the lines of its sources, which stand beside it; None where it is a report."""
    with open(path, encoding="utf-8") as file:
        firmware = json.load(file)
    if "ram" not in firmware:
        return None
    code = [owner["code"] for owner in firmware["compartments"] + firmware.get("libraries", [])]
    return firmware, {it["file"]: lines_of(os.path.dirname(path), it["file"]) for it in code if "file" in it}


def in_folders():
    """The samples, and the firmware in which mistakes are planted."""
    for path in sorted(glob.glob(os.path.join(SAMPLES, "*", "*.json"))) + [os.path.join(HERE, "planted", "gate.json")]:
        read = in_file(path)
        if read:
            yield path, *read


def in_tables():
    """The firmwares of the tables that are linked: those whose description is accepted."""
    import explain_rows
    from places import descriptions
    from places.texts import Text
    explain_rows.TABLES[:] = ["links", "calls", "threads", "heap", "scripts"]
    with tempfile.TemporaryDirectory() as folder:
        for row in explain_rows.rows(folder):
            if row.refusal or row.words[0] not in ("audit", "image", "run") or descriptions.first(Text("", row.data)):
                continue
            firmware = json.loads(row.data)
            files = {owner["code"].get("file") for owner in firmware["compartments"] + firmware.get("libraries", [])}
            yield row.name, firmware, {file: lines_of(folder, file) for file in files if file}


def generated():
    yield "demo", *demo(3)


# ---- mnemonics

def operands(word, form, variant):
    """Operands of a form: registers, and numbers that every instruction takes, of `li` one of two words too."""
    registers = iter((("c10", "c2", "c15"), ("c0", "c1", "c5"), ("c1", "c0", "c0"))[variant])
    pieces = {"R": lambda: next(registers), "N": lambda: ("8", "0", "0x12345678" if word == "li" else "31")[variant],
              "T": lambda: ("8", "-8", "to")[variant], "L": lambda: "q"}
    return "".join(pieces.get(part, lambda part=part: part)() for part in form)


def listed(text, initial=b"", slots=("switch", "q")):
    """The lines of a text as a compartment's."""
    rows = [(1, 40, 0, 0, name) for name in slots]
    return list(Listing(Owner("compartment", "c", 0, rows, [], text, initial)).lines())


def mnemonic_fault(word):
    for form in FORMS[word]:
        for variant in range(3):
            statement = f"{word} {operands(word, form, variant)}"
            before = ["q: nop"] if word == "cla" else [".data", "q: .word 1", ".text"]
            source = [*before, statement, "to: nop"]
            text, initial, _ = assemble(source, ["switch", "q"])
            lines = listed(text, initial)
            if assemble(lines, ["switch", "q"])[:2] != (text, initial):
                return f"{statement} comes out as {lines}"
            if variant == 0 and not any(line.split()[:1] == [SAME.get(word, word)] for line in lines):
                return f"{word} comes out as {lines}"
    return None


# ---- words

def systematic():
    """Words of each opcode and each funct3, and of those that compute each funct7 and each second register."""
    for opcode in range(128):
        for funct3 in range(8):
            yield opcode | funct3 << 12 | 10 << 7 | 11 << 15 | 12 << 20
            yield opcode | funct3 << 12
    for opcode in (0x13, 0x33, 0x5B):
        for funct3 in range(8):
            for funct7 in range(128):
                yield opcode | funct3 << 12 | 10 << 7 | 11 << 15 | 3 << 20 | funct7 << 25
    for second in range(32):
        yield 0x5B | 10 << 7 | 11 << 15 | second << 20 | 0x7F << 25
    for opcode in (0x03, 0x13, 0x17, 0x23, 0x33, 0x37, 0x5B, 0x63, 0x67, 0x6F, 0x7B):
        for field in (7, 15, 20):
            for funct3 in (0, 1, 5):
                yield opcode | funct3 << 12 | 16 << field
    yield from (0x0F, 0x73, 0x100073, 0x200073, 0x1000000F)


def is_instruction(word):
    """Whether the machine takes a word as an instruction."""
    board = HeapMachine(images.read(images.tiny()))
    try:
        board.instruct(0, board.threads[0], word)
    except machine.Trap as trap:
        return trap.told[0] != ILLEGAL
    return True


def has_mnemonic(word):
    """Whether an instruction can be written by its mnemonic: no access of a control or status register or of a special
    one can, and no `fence` with an immediate."""
    opcode, funct3 = word & 127, word >> 12 & 7
    if opcode == 0x0F:
        return word == 0x0F
    return not (opcode == 0x73 and funct3 or opcode == 0x5B and funct3 == 0 and word >> 25 == 1)


def words_fault():
    """What differs of single words, and of texts of random ones."""
    for word in systematic():
        due = is_instruction(word) and has_mnemonic(word)
        if (decoded(word) is not None) != due:
            return f"{word:08x} is decoded as {decoded(word)}, and the machine says {due}"
    chance = random.Random(SEED)
    opcodes = [0x03, 0x13, 0x17, 0x23, 0x33, 0x37, 0x5B, 0x63, 0x67, 0x6F, 0x7B]
    for number in range(TEXTS):
        words = [chance.getrandbits(32) for _ in range(WORDS)]
        words = [word & ~REGISTERS_ABOVE | chance.choice(opcodes) for word in words]
        words += list(systematic()) if number == 0 else []
        text = b"".join(images.number(word) for word in words)
        initial = bytes(chance.getrandbits(8) for _ in range(37))
        lines = listed(text, initial)
        if assemble(lines, ["switch", "q"])[:2] != (text, initial):
            return f"a text of random words, number {number}, differs"
    return None


def main():
    if sys.argv[1:]:
        sys.stdout.buffer.write(link(*in_file(sys.argv[1])))
        return 0
    faults, count = [], 0
    for name, firmware, sources in [*in_folders(), *in_tables(), *generated()]:
        count += 1
        faults.append(again(name, firmware, sources))
    faults += [mnemonic_fault(word) for word in MNEMONICS]
    faults.append(words_fault())
    faults = [fault for fault in faults if fault]
    print("\n".join(faults), end="\n" * bool(faults))
    print(f"{len(faults)} of {count} images, {len(MNEMONICS)} mnemonics and {len(list(systematic()))} words differ")
    return 1 if faults else 0


if __name__ == "__main__":
    sys.exit(main())
