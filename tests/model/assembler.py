"""An assembler by docs/use/assembler.md, for sources without faults."""
import re

REGISTERS = {}
for n, name in enumerate("zero ra sp gp tp t0 t1 t2 s0 s1 a0 a1 a2 a3 a4 a5".split()):
    for word in (name, "c" + name, f"c{n}", f"x{n}"):
        REGISTERS[word] = n
REGISTERS["cnull"] = 0
del REGISTERS["czero"]
THREE = {"add": (0, 0), "sub": (0, 0x20), "sll": (1, 0), "slt": (2, 0), "sltu": (3, 0), "xor": (4, 0), "srl": (5, 0),
         "sra": (5, 0x20), "or": (6, 0), "and": (7, 0)}
for n, name in enumerate("mul mulh mulhsu mulhu div divu rem remu".split()):
    THREE[name] = (n, 1)
CAPS = {"csetbounds": 8, "csetboundsexact": 9, "cseal": 0xB, "cunseal": 0xC, "candperm": 0xD, "csetaddr": 0x10,
        "cincaddr": 0x11, "csub": 0x14, "csethigh": 0x16, "ctestsubset": 0x20, "csetequalexact": 0x21}
ONE = {"cgetperm": 0, "cgettype": 1, "cgetbase": 2, "cgetlen": 3, "cgettag": 4, "crrl": 8, "cram": 9, "cmove": 10,
       "ccleartag": 11, "cgetaddr": 15, "cgethigh": 23, "cgettop": 24}
IMM = {"addi": 0, "slti": 2, "sltiu": 3, "xori": 4, "ori": 6, "andi": 7}
LOADS = {"lb": 0, "lh": 1, "lw": 2, "clc": 3, "lbu": 4, "lhu": 5}
STORES = {"sb": 0, "sh": 1, "sw": 2, "csc": 3}
BRANCHES = {"beq": 0, "bne": 1, "blt": 4, "bge": 5, "bltu": 6, "bgeu": 7}
for name in list(LOADS) + list(STORES):
    if name not in ("clc", "csc"):
        (LOADS if name in LOADS else STORES)["c" + name] = (LOADS if name in LOADS else STORES)[name]


def i_type(op, f3, rd, rs1, n):
    return (n & 0xFFF) << 20 | rs1 << 15 | f3 << 12 | rd << 7 | op


def r_type(op, f3, f7, rd, rs1, rs2):
    return f7 << 25 | rs2 << 20 | rs1 << 15 | f3 << 12 | rd << 7 | op


def s_type(f3, rs1, rs2, n):
    return (n >> 5 & 127) << 25 | rs2 << 20 | rs1 << 15 | f3 << 12 | (n & 31) << 7 | 0x23


def b_type(f3, rs1, rs2, n):
    spread = (n >> 12 & 1) << 31 | (n >> 5 & 63) << 25 | (n >> 1 & 15) << 8 | (n >> 11 & 1) << 7
    return spread | rs2 << 20 | rs1 << 15 | f3 << 12 | 0x63


def j_type(rd, n):
    return (n >> 20 & 1) << 31 | (n >> 1 & 1023) << 21 | (n >> 11 & 1) << 20 | (n >> 12 & 255) << 12 | rd << 7 | 0x6F


def signed(n):
    n &= 0xFFFFFFFF
    return n - 2 ** 32 if n >> 31 else n


def split(lines):
    """Statements with labels: (section, offset, word, operands), and the sizes."""
    section, at, labels, out = "text", {"text": 0, "data": 0}, {}, []
    for line in lines:
        line = line.split("#")[0].strip()
        m = re.match(r"([A-Za-z_]\w*)\s*:\s*", line)
        if m and m.group(1):
            labels[m.group(1)] = (section, at[section])
            line = line[m.end():]
        if not line:
            continue
        word, _, rest = line.partition(" ")
        if word in (".text", ".data"):
            section = word[1:]
            continue
        ops = [o.strip() for o in rest.split(",")] if rest.strip() else []
        out.append((section, at[section], word, ops))
        at[section] += size(word, ops, at[section])
    return out, labels, at


def number(text):
    return int(text, 16 if text.startswith("0x") else 10)


def size(word, ops, at):
    if word == ".byte":
        return 1
    if word == ".zero":
        return number(ops[0])
    if word == ".align":
        return -at % number(ops[0])
    if word == "li":
        return 4 if -2048 <= signed(number(ops[1])) <= 2047 else 8
    return 8 if word in ("cimport", "cla", "clg") else 4


def place(text):
    m = re.match(r"(-?\w+)\((\w+)\)$", text)
    return number(m.group(1)), REGISTERS[m.group(2)]


def halves(d):
    hi = abs(d) // 2048 * (-1 if d < 0 else 1)
    return hi & 0xFFFFF, d - 2048 * hi


def assemble(lines, slots):
    """Text, initial bytes and labels, where the slots have these names."""
    statements, labels, sizes = split(lines)
    text, data = bytearray(sizes["text"]), bytearray(sizes["data"])

    def target(operand, at):
        return labels[operand][1] - at if operand in labels else number(operand)
    for section, at, word, ops in statements:
        if section == "data" or word.startswith("."):
            n = {".word": 4, ".byte": 1}.get(word)
            if n:
                part = data if section == "data" else text
                part[at:at + n] = (number(ops[0]) & (256 ** n - 1)).to_bytes(n, "little")
            continue
        reg = lambda k: REGISTERS[ops[k]]
        if word in THREE:
            words = [r_type(0x33, *THREE[word], reg(0), reg(1), reg(2))]
        elif word in CAPS:
            words = [r_type(0x5B, 0, CAPS[word], reg(0), reg(1), reg(2))]
        elif word in ONE:
            words = [r_type(0x5B, 0, 0x7F, reg(0), reg(1), ONE[word])]
        elif word in IMM:
            words = [i_type(0x13, IMM[word], reg(0), reg(1), number(ops[2]))]
        elif word in ("slli", "srli", "srai"):
            kind = (1, 0) if word == "slli" else (5, 0) if word == "srli" else (5, 0x20)
            words = [r_type(0x13, *kind, reg(0), reg(1), number(ops[2]))]
        elif word == "cincaddrimm":
            words = [i_type(0x5B, 1, reg(0), reg(1), number(ops[2]))]
        elif word == "csetboundsimm":
            words = [i_type(0x5B, 2, reg(0), reg(1), number(ops[2]))]
        elif word in ("lui", "auipcc", "auicgp"):
            opcode = {"lui": 0x37, "auipcc": 0x17, "auicgp": 0x7B}[word]
            words = [(number(ops[1]) & 0xFFFFF) << 12 | reg(0) << 7 | opcode]
        elif word in LOADS:
            n, base = place(ops[1])
            words = [i_type(0x03, LOADS[word], reg(0), base, n)]
        elif word in STORES:
            n, base = place(ops[1])
            words = [s_type(STORES[word], base, reg(0), n)]
        elif word == "cjalr":
            n, base = place(ops[1]) if "(" in ops[1] else (0, reg(1))
            words = [i_type(0x67, 0, reg(0), base, n)]
        elif word in BRANCHES:
            words = [b_type(BRANCHES[word], reg(0), reg(1), target(ops[2], at))]
        elif word in ("beqz", "bnez"):
            words = [b_type(int(word == "bnez"), reg(0), 0, target(ops[1], at))]
        elif word in ("jal", "cjal"):
            words = [j_type(reg(0), target(ops[1], at))]
        elif word == "j":
            words = [j_type(0, target(ops[0], at))]
        elif word == "cret":
            words = [i_type(0x67, 0, 0, 1, 0)]
        elif word == "cjr":
            words = [i_type(0x67, 0, 0, reg(0), 0)]
        elif word == "nop":
            words = [0x13]
        elif word == "mv":
            words = [i_type(0x13, 0, reg(0), reg(1), 0)]
        elif word == "li":
            n = signed(number(ops[1]))
            low = signed((n & 0xFFF) << 20) >> 20
            words = [i_type(0x13, 0, reg(0), 0, n)] if -2048 <= n <= 2047 else \
                [(n - low & 0xFFFFFFFF) & 0xFFFFF000 | reg(0) << 7 | 0x37, i_type(0x13, 0, reg(0), reg(0), low)]
        elif word == "cimport":
            hi, lo = halves(8 * slots.index(ops[1]) - 8 * len(slots) - at)
            words = [hi << 12 | reg(0) << 7 | 0x17, i_type(0x03, 3, reg(0), reg(0), lo)]
        elif word == "cla":
            hi, lo = halves(labels[ops[1]][1] - at)
            words = [hi << 12 | reg(0) << 7 | 0x17, i_type(0x5B, 1, reg(0), reg(0), lo)]
        elif word == "clg":
            hi, lo = halves(labels[ops[1]][1])
            words = [hi << 12 | reg(0) << 7 | 0x7B, i_type(0x5B, 1, reg(0), reg(0), lo)]
        elif word == "fence":
            words = [0x0F]
        elif word == "ecall":
            words = [0x73]
        elif word == "ebreak":
            words = [0x100073]
        else:
            raise ValueError(word)
        assert len(words) * 4 == size(word, ops, at), (word, ops)
        for n, w in enumerate(words):
            text[at + 4 * n:at + 4 * n + 4] = w.to_bytes(4, "little")
    return bytes(text), bytes(data), {name: off for name, (section, off) in labels.items() if section == "text"}
