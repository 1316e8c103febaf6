#!/usr/bin/env python3
"""Assembles a random source of base and M instructions with binutils for RISC-V and with ct_asm, and
compares the words. Outside the gate. Needs Debian's binutils-riscv64-unknown-elf, and `rt`.

A copy of the repository gets one more test, which holds the source and the words that binutils gives,
and `rt try --test` runs it. Words: how many statements (2000), the seed (1)."""
import os, random, shutil, subprocess, sys, tempfile

count = int(sys.argv[1]) if len(sys.argv) > 1 else 2000
random.seed(int(sys.argv[2]) if len(sys.argv) > 2 else 1)
top = os.path.dirname(os.path.dirname(os.path.abspath(__file__)))
reg = lambda: "x%d" % random.randrange(16)
small = lambda: random.choice([random.randrange(-2048, 2048), -2048, 2047, 0])
label = lambda k, reach: "l%d" % random.randrange(max(0, k - reach), min(count, k + reach))

def statement(k):
    kind = random.randrange(9)
    if kind == 0:
        return "%s %s, %s, %s" % (random.choice("add sub sll slt sltu xor srl sra or and mul mulh mulhsu mulhu div divu rem remu".split()), reg(), reg(), reg())
    if kind == 1:
        return "%s %s, %s, %d" % (random.choice("addi slti sltiu xori ori andi".split()), reg(), reg(), small())
    if kind == 2:
        return "%s %s, %s, %d" % (random.choice("slli srli srai".split()), reg(), reg(), random.randrange(32))
    if kind == 3:
        return "%s %s, %d(%s)" % (random.choice("lb lh lw lbu lhu sb sh sw".split()), reg(), small(), reg())
    if kind == 4:
        return "%s %s, %s, %s" % (random.choice("beq bne blt bge bltu bgeu".split()), reg(), reg(), label(k, 500))
    if kind == 5:
        return "jal %s, %s" % (reg(), label(k, count))
    if kind == 6:
        return "lui %s, %d" % (reg(), random.randrange(1 << 20))
    if kind == 7:
        return random.choice(["nop", "mv %s, %s" % (reg(), reg()), "j %s" % label(k, count), "ecall", "ebreak"])
    return random.choice(["beqz %s, %s" % (reg(), label(k, 500)), "bnez %s, %s" % (reg(), label(k, 500))])

source = "".join("l%d: %s\n" % (k, statement(k)) for k in range(count))
with tempfile.TemporaryDirectory() as work:
    open(work + "/s.s", "w").write(source)
    subprocess.check_call(["riscv64-unknown-elf-as", "-march=rv32im", "-mno-relax", "-o", work + "/s.o", work + "/s.s"])
    subprocess.check_call(["riscv64-unknown-elf-objcopy", "-O", "binary", "-j", ".text", work + "/s.o", work + "/s.bin"])
    data = open(work + "/s.bin", "rb").read()
    words = [int.from_bytes(data[i:i + 4], "little") for i in range(0, len(data), 4)]
    assert len(words) == count, (len(words), count)
    copy = work + "/copy"
    shutil.copytree(top, copy, ignore=shutil.ignore_patterns("out", ".git"))
    tests = copy + "/crates/tests_words/src/asm.rt"
    with open(tests, "a") as file:
        file.write("\n#[test]\nfn compared(rt: HostRuntime) {\n    let names = Names::new(rt.alloc());\n    gives(&rt, rt.alloc(), &names, \"%s\", &[%s]);\n}\n" % (source.replace("\n", "\\n"), ", ".join(map(str, words))))
    done = subprocess.run(["rt", "try", "--test"], cwd=copy + "/crates/tests_words", capture_output=True, text=True)
    line = [l for l in done.stdout.splitlines() if "compared" in l]
    print("\n".join(line) or done.stdout + done.stderr)
