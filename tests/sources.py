#!/usr/bin/env python3
"""Worked rows of sources: faults, reaches of branches, results of integer instructions, each word of the language.

    sources.py OUT     writes the cases that cases.py tells of

The faults were taken from docs/use/assembler.md, the results of integer instructions from a model in another language
with unbounded integers (docs/build/testing.md). What a source with each word stands for is model/assembler.py's.
"""
import copy
import json
import os
import re

from cases import (DEVICES, QUOTA, SAMPLES, UART, case, compartment, content_of, ended, image, lines, report, run,
                   sample, service, source, stored, stored_file, thread)

TINY = sample("tiny")
COUNT = [0]


def filed(file, **members):
    """The smallest sample with its code in a file."""
    firmware = dict(copy.deepcopy(TINY), **members)
    firmware["compartments"][0]["code"] = {"file": file}
    return firmware


def faults(rows):
    """Each text has that fault on that line."""
    for text, number, line in rows:
        COUNT[0] += 1
        file = stored_file(f"fault_{COUNT[0]}.s", text)
        refusal = f"refused 5 assembly A{number} app {line}\n"
        case(f"source_{COUNT[0]}", ["audit", "{}"], json.dumps(filed(file)), refusal)


# ---- tokens

faults([
    ("nop # é", 1, 1),
    ("nop\r", 1, 1),
    ("add a0; a1", 1, 1),
    ("li a0, 1a", 1, 1),
    ("li a0, 5-3", 1, 1),
    ("li a0, a-3", 1, 1),
    ("li a0, 0X10", 1, 1),
    ("li a0, -0x10", 1, 1),
    ("li a0, 0x", 1, 1),
    ("li a0, 0xg", 1, 1),
    ("li a0, -", 1, 1),
    (".", 1, 1),
    ("a.b:", 1, 1),
    ("@", 1, 1),
    (".9", 1, 1),
    ("li a0, 340282366920938463463374607431768211456", 1, 1),
    ("li a0, 0x100000000000000000000000000000000", 1, 1),
    ("li a0, -170141183460469231731687303715884105729", 1, 1),
    ("aaaaaaaaaaaaaaaaaaaaaaaaaaaaaaaaaaaaaaaaaaaaaaaaaaaaaaaaaaaaaaaaa:", 1, 1),
    ("nop\x0b", 1, 1),
])

# ---- first words

faults([
    ("frob a0", 2, 1),
    ("csr a0", 2, 1),
    ("cspecialrw a0, a1", 2, 1),
    ("cclc a0, 0(a1)", 2, 1),
    ("ccsc a0, 0(a1)", 2, 1),
    ("NOP", 2, 1),
    ("5", 2, 1),
    (", nop", 2, 1),
    (":", 2, 1),
    ("(", 2, 1),
    (")", 2, 1),
    (".frob", 2, 1),
    (".add a0, a1, a2", 2, 1),
    ("text", 2, 1),
    ("a: b: nop", 2, 1),
    ("a: 5", 2, 1),
    ("1: nop", 2, 1),
    ("cli a0, 1", 2, 1),
    (".TEXT", 2, 1),
])

# ---- what other assemblers take, by the table of the page, and what stands for it here

PAGE = os.path.join(os.path.dirname(os.path.abspath(__file__)), "..", "docs", "use", "assembler.md")


def table(title):
    """The rows of the table of a section of the page."""
    with open(PAGE) as file:
        section = file.read().split(f"## {title}\n")[1].split("\n## ")[0]
    return [line.strip("| ").split(" | ") for line in section.splitlines() if line.startswith("| `")]


KNOWN = table("You know, write here")
assert len(KNOWN) > 30
faults([(text, int(fault[1:]), 1) for known, fault, _ in KNOWN for text in re.findall("`([^`]+)`", known)])
WRITTEN = [text for *_, written in KNOWN for text in re.findall("`([^`]+)`", written)]
DATA = [text for text in WRITTEN if text.startswith(".byte")]
spelled = filed(None)
spelled["compartments"][0]["code"] = source("spelled.s", ["f: nop", *[
    text.removeprefix("f: ") for text in WRITTEN if text not in DATA], ".data", "x:", *DATA])
case("spelled", ["audit", "{}"], json.dumps(spelled), lines(report(spelled)))

# ---- forms and sections

faults([
    ("nop a0", 3, 1),
    ("add a0, a1", 3, 1),
    ("add a0, a1, 5", 3, 1),
    ("add a0 a1, a2", 3, 1),
    ("addi a0, a1, a2", 3, 1),
    ("li a0", 3, 1),
    ("li 5, a0", 3, 1),
    ("lw a0, 4", 3, 1),
    ("lw a0, (a1)", 3, 1),
    ("lw a0, 4(a1) a2", 3, 1),
    ("go: lw a0, 4(a1) a2", 3, 1),
    ("sw a0, 4(5)", 3, 1),
    ("beq a0, a1", 3, 1),
    ("jal done", 3, 1),
    ("j", 3, 1),
    ("cimport a0, 5", 3, 1),
    ("cla a0, 4", 3, 1),
    ("clg a0, 4", 3, 1),
    ("mv a0, czero", 3, 1),
    ("mv a0, c00", 3, 1),
    ("mv a0, c32", 3, 1),
    (".word", 3, 1),
    (".word x", 3, 1),
    (".byte 1", 3, 1),
    (".zero 4", 3, 1),
    (".align 4", 3, 1),
    (".text 5", 3, 1),
    ("a: mv: nop", 3, 1),
    ("fence 5", 3, 1),
    ("cret a0", 3, 1),
    ("csetbounds a0, a1, 5", 3, 1),
    (".data\nnop", 3, 2),
])

# ---- ranges

faults([
    ("addi a0, a1, 2048", 4, 1),
    ("addi a0, a1, -2049", 4, 1),
    ("csetboundsimm a0, a1, 4096", 4, 1),
    ("csetboundsimm a0, a1, -1", 4, 1),
    ("slli a0, a1, 32", 4, 1),
    ("lw a0, 2048(a1)", 4, 1),
    ("sw a0, -2049(a1)", 4, 1),
    ("lui a0, 1048576", 4, 1),
    ("lui a0, -524289", 4, 1),
    ("beq a0, a1, 3", 4, 1),
    ("beq a0, a1, 4096", 4, 1),
    ("beq a0, a1, -4098", 4, 1),
    ("j 1048576", 4, 1),
    ("li a0, 4294967296", 4, 1),
    ("li a0, 4294967301", 4, 1),
    ("li a0, -2147483649", 4, 1),
    (".word 4294967296", 4, 1),
    (".word 4294967301", 4, 1),
    ("addi a0, a1, 4294967301", 4, 1),
    ("li a0, -170141183460469231731687303715884105728", 4, 1),
    (".data\n.byte 256", 4, 2),
    (".data\n.byte -129", 4, 2),
    (".data\n.zero 1048577", 4, 2),
    (".data\n.align 3", 4, 2),
    (".data\n.align 0", 4, 2),
    (".data\n.align 8192", 4, 2),
])

# ---- registers

faults([
    ("mv c16, a0", 7, 1),
    ("add x31, a0, a1", 7, 1),
    ("lw a0, 0(c16)", 7, 1),
    ("beqz x16, 4", 7, 1),
])

# ---- the least line, and then the least number

faults([
    ("addi x16, a0, 4096", 4, 1),
    (".data\naddi x16, a0, 5000", 3, 2),
    ("frob 1a", 1, 1),
    ("nop 5 # é", 1, 1),
    ("nop\nfrob\nli a0, 1a", 2, 2),
    ("addi a0, a0, 4096\nfrob", 4, 1),
    ("nop\n\nmv c16, a0\nadd", 7, 3),
])

# ---- labels and sizes

faults([
    ("a: nop\na: nop", 5, 2),
    ("a: nop\n.data\na: .word 1", 5, 3),
    ("a:\nb:\na: j b\nb:", 5, 3),
    ("j nowhere", 6, 1),
    ("beq a0, a1, d\n.data\nd: .word 1", 6, 1),
    ("clg a0, main\nmain:", 6, 1),
    ("cla a0, d\n.data\nd:", 6, 1),
    (".data\n.zero 1048576\n.byte 1", 8, 3),
    (".data\n.zero 1048575\n.word 1", 8, 3),
    (".data\n.zero 1048573\n.align 4096\n.byte 0", 8, 4),
    ("j nowhere\na:\na:", 6, 1),
    ("a:\na: j nowhere", 5, 2),
    (".data\n.zero 1048576\n.byte 0\n.text\nj nowhere", 8, 3),
    ("j nowhere\n.data\n.zero 1048576\n.byte 0", 6, 1),
    ("a:\na: beq a0, a1, b\n.data\n.zero 4\n.text\nb:\na:", 5, 2),
])

# ---- reaches of branches

ROOM = {"base": 0x80000000, "size": 16384}
for name, text, wanted in (
        ("near", ["beq a0, a1, to", *["nop"] * 1022, "to:"], None),
        ("far", ["beq a0, a1, to", *["nop"] * 1023, "to:"], "A4 app 1"),
        ("back", ["to:", *["nop"] * 1024, "bnez a0, to"], None),
        ("past", ["to:", *["nop"] * 1025, "bnez a0, to"], "A4 app 1027")):
    firmware = filed(source(f"reach_{name}.s", text)["file"], ram=ROOM)
    case(f"reach_{name}", ["audit", "{}"], json.dumps(firmware),
         f"refused 5 assembly {wanted}\n" if wanted else lines(report(firmware)))

# ---- what integer instructions give

# An instruction of c12 by c10 and c11, what these hold, and what it gives.
RESULTS = [
    ("lui a2, 0xFFFFF", 9, 0, 0xFFFFF000),
    ("addi a2, a0, 1", 0xFFFFFFFF, 0, 0),
    ("addi a2, a0, -8", 5, 0, 0xFFFFFFFD),
    ("slti a2, a0, 0", 0xFFFFFFFF, 0, 1),
    ("sltiu a2, a0, -1", 0, 0, 1),
    ("xori a2, a0, -1", 0xF0F0, 0, 0xFFFF0F0F),
    ("ori a2, a0, 0x7F0", 1, 0, 0x7F1),
    ("andi a2, a0, 255", 0x1234, 0, 52),
    ("slli a2, a0, 31", 1, 0, 0x80000000),
    ("srli a2, a0, 31", 0x80000000, 0, 1),
    ("srai a2, a0, 31", 0x80000000, 0, 0xFFFFFFFF),
    ("add a2, a0, a1", 0xFFFFFFFF, 2, 1),
    ("sub a2, a0, a1", 1, 2, 0xFFFFFFFF),
    ("sll a2, a0, a1", 1, 33, 2),
    ("slt a2, a0, a1", 0x80000000, 1, 1),
    ("sltu a2, a0, a1", 0x80000000, 1, 0),
    ("xor a2, a0, a1", 0xAAAA, 0xFFFF, 0x5555),
    ("srl a2, a0, a1", 0x80000000, 63, 1),
    ("sra a2, a0, a1", 0x80000000, 36, 0xF8000000),
    ("or a2, a0, a1", 16, 1, 17),
    ("and a2, a0, a1", 17, 1, 1),
    ("mul a2, a0, a1", 0x00010001, 0x00010001, 0x00020001),
    ("mulh a2, a0, a1", 0xFFFFFFFF, 0xFFFFFFFF, 0),
    ("mulh a2, a0, a1", 0x80000000, 0x80000000, 0x40000000),
    ("mulhsu a2, a0, a1", 0xFFFFFFFF, 0xFFFFFFFF, 0xFFFFFFFF),
    ("mulhsu a2, a0, a1", 0x80000000, 0xFFFF8000, 0x80004000),
    ("mulhu a2, a0, a1", 0xFFFFFFFF, 0xFFFFFFFF, 0xFFFFFFFE),
    ("div a2, a0, a1", 0xFFFFFFEC, 6, 0xFFFFFFFD),
    ("div a2, a0, a1", 0x80000000, 0xFFFFFFFF, 0x80000000),
    ("div a2, a0, a1", 7, 0, 0xFFFFFFFF),
    ("divu a2, a0, a1", 7, 0, 0xFFFFFFFF),
    ("divu a2, a0, a1", 0xFFFFFFEC, 6, 0x2AAAAAA7),
    ("rem a2, a0, a1", 0xFFFFFFEC, 6, 0xFFFFFFFE),
    ("rem a2, a0, a1", 20, 0xFFFFFFFA, 2),
    ("rem a2, a0, a1", 0x80000000, 0xFFFFFFFF, 0),
    ("rem a2, a0, a1", 0xFFFFFFF9, 0, 0xFFFFFFF9),
    ("remu a2, a0, a1", 0xFFFFFFEC, 6, 2),
    ("remu a2, a0, a1", 7, 0, 7),
]


def steps_of_load(value):
    """How many words `li` has."""
    return 1 if value < 2048 or value >= 2 ** 32 - 2048 else 2


# One run of all of them: each loads both registers, and shows what it gives at the serial port.
text, told, step = ["main: cimport ct0, uart"], [], 2
for line, x, y, result in RESULTS:
    text += [f"li a0, {x}", f"li a1, {y}", line, "csw a2, 0(ct0)"]
    step += steps_of_load(x) + steps_of_load(y) + 2
    told.append(stored(step, 0, 0, 4, result))
firmware = filed(source("integers.s", [*text, "cret"])["file"])
run("integers", firmware, 1000, *told, ended("finished", step + 2, ticks=(step + 1) // 100, devices=len(told)))

# ---- one source with each word of the language, each name of a register, and the ends of each range

NAMES = [f"{letter}{n}" for letter in "cx" for n in range(16)] + ["zero", "cnull"] + [
    name for plain in "ra sp gp tp t0 t1 t2 s0 s1 a0 a1 a2 a3 a4 a5".split() for name in (plain, "c" + plain)]
THREE = ("add sub sll slt sltu xor srl sra or and mul mulh mulhsu mulhu div divu rem remu csetbounds csetboundsexact "
         "cseal cunseal candperm csetaddr cincaddr csub csethigh ctestsubset csetequalexact").split()
TWO = "cgetperm cgettype cgetbase cgetlen cgettag crrl cram cmove ccleartag cgetaddr cgethigh cgettop cjalr mv".split()
LOADS = "lb lh lw lbu lhu clb clh clw clbu clhu clc cjalr".split()
STORES = "sb sh sw csb csh csw csc".split()
BRANCHES = "beq bne blt bge bltu bgeu".split()
SERVICES = "yield sleep wait wake allocate free remaining token_key token_new token_open token_free".split()
SIGNED, JUMPS, WAYS = (-2048, 2047, 0), (-1048576, 1048574), ("first", "last", "here")
WORDS = [
    (["add"], [operands for name in NAMES for operands in (
        f"{name}, zero, a5", f"cnull, {name}, x15", f"c15, a5, {name}")]),
    (["sw", "lw"], [f"{name}, 4({name})" for name in NAMES]),
    (THREE, ["a0, cs1, x5", "c15, zero, ra"]),
    (TWO, ["a1, csp", "x4, c3"]),
    ("addi slti sltiu xori ori andi cincaddrimm".split(), [f"ct1, a2, {n}" for n in SIGNED]),
    ("slli srli srai".split(), [f"a3, t2, {n}" for n in (0, 31)]),
    (["csetboundsimm"], [f"ca4, cgp, {n}" for n in (0, 4095)]),
    ("lui auipcc auicgp".split(), [f"c8, {n}" for n in (-524288, 1048575, 0)]),
    (LOADS, [f"a0, {n}(csp)" for n in SIGNED]),
    (STORES, [f"a0, {n}(csp)" for n in SIGNED]),
    (BRANCHES, [f"a0, ra, {to}" for to in (*WAYS, -4096, 4094, 0)]),
    (["beqz", "bnez"], [f"a0, {to}" for to in (*WAYS, -4096, 4094)]),
    (["jal", "cjal"], [f"cra, {to}" for to in (*WAYS, *JUMPS)]),
    (["j"], [*WAYS, *map(str, JUMPS)]),
    (["cjr"], ["ct2", "x1"]),
    ("nop cret fence ecall ebreak".split(), [""]),
    (["li"], [f"a0, {n}" for n in (
        0, 2047, 2048, -2048, -2049, 4294967295, 4294965248, 4294965247, -2147483648, 2147483647, "0x7FFFfabc",
        "0x00000000000000000000800")]),
    (["cimport"], [f"ca0, {name}" for name in ("switch", "uart", *SERVICES, "q", "key13", "key14")]),
    (["cla"], [f"ca0, {to}" for to in WAYS]),
    (["clg"], ["ca0, bytes", "ca1, end"]),
    ([".word"], ["-2147483648", "4294967295", "0x0a1B2c3D"]),
]
DATA = [".data", "bytes: .byte -128", ".byte 255", ".align 2", ".byte 0x7f", ".align 4", ".word -1", ".zero 0",
        ".zero 5", *[f".align {1 << n}" for n in range(13)], ".byte 1", "end: .byte 2", ".text", "nop"]


def page_words():
    """The words that docs/use/assembler.md lists: directives, mnemonics and pseudo instructions."""
    page = content_of(os.path.join(SAMPLES, "..", "docs", "use", "assembler.md")).decode()
    lists = page[page.index("## Sections"):page.index("## You know")]
    cells = [line.split("|")[1] for line in lists.split("\n") if line.startswith("| `")]
    items = [item.split("\n\n")[0].partition(": ")[2] for item in lists.split("\n- ")[1:]]
    found = re.findall(r"`(\.?[a-z]+)", " ".join(cells)) + re.findall(r"`([a-z]{2,})`", " ".join(items))
    return set(found)


body = [f"{word} {operands}".strip() for words, forms in WORDS for word in words for operands in forms]
middle = len(body) // 2
text = ["main:", "first: nop", *body[:middle], "here: nop # a comment", *body[middle:], "last : cret", *DATA]
used = {word for line in text for word in re.sub(r"^\w+ *:", "", line).split()[:1]}
assert page_words() | {"c" + word for word in LOADS + STORES if word[0] in "ls"} == used, page_words() ^ used
words = {"firmware": "words", "ram": {"base": 0x80000000, "size": 65536}, "threads": [thread("app.main")],
         "devices": DEVICES,
         "compartments": [compartment("app", [UART, *map(service, SERVICES)], ["main"], keys=[13, 14], **QUOTA)]}
words["compartments"][0]["code"] = source("each_word.s", text)
case("each_word", ["image", "{}"], json.dumps(words), image(words))
