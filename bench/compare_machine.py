#!/usr/bin/env python3
"""Compares runs of random firmware with those of the plain machine in tests/model.

    compare_machine.py COUNT SEED [STEPS [PROGRAM]]

writes COUNT cases and runs them through a built program, or without one by `rt try --cases`, which proves nothing; of
each case is said whether it wrote what the plain machine writes. Two compartments that call one another, most of them
with an error handler, a library, a shared word, three devices, up to five threads, quotas, keys and tokens, and sweeps
of several rates; code is random statements, most of which go on.
"""
import os
import random
import subprocess
import sys
import tempfile

HERE = os.path.dirname(os.path.abspath(__file__))
COUNT, SEED = int(sys.argv[1]), int(sys.argv[2])
STEPS = int(sys.argv[3]) if len(sys.argv) > 3 else 400
PROGRAM = os.path.realpath(sys.argv[4]) if len(sys.argv) > 4 else None
OUT = tempfile.mkdtemp()
sys.argv = [sys.argv[0], OUT]
sys.path.insert(0, os.path.join(HERE, "..", "tests"))
sys.dont_write_bytecode = True
from cases import case, compartment, image, lines, modelled, report, source  # noqa: E402
import json  # noqa: E402

REGISTERS = ["ra", "sp", "gp", "tp", "t0", "t1", "t2", "s0", "s1", "a0", "a1", "a2", "a3", "a4", "a5"]
PLAIN = ["tp", "t0", "t1", "a0", "a1", "a2", "a3", "a4", "a5"]
INTEGER = ["add", "sub", "sll", "slt", "sltu", "xor", "srl", "sra", "or", "and", "mul", "mulh", "mulhsu", "mulhu",
           "div", "divu", "rem", "remu"]
BRANCHES = ["beq", "bne", "blt", "bge", "bltu", "bgeu"]
LOOKS = ["cgetperm", "cgettype", "cgetbase", "cgetlen", "cgettag", "crrl", "cram", "cgetaddr", "cgethigh", "cgettop"]
MAKES = ["csetbounds", "csetboundsexact", "cseal", "cunseal", "candperm", "csetaddr", "cincaddr", "csub", "csethigh",
         "ctestsubset", "csetequalexact"]
SERVICES = ["yield", "sleep", "wait", "wake"]
HEAP = ["allocate", "free", "remaining", "token_key", "token_new", "token_open", "token_free"]
DEVICES = [("uart0", "uart"), ("pins", "gpio"), ("clock", "timer")]


class Code:
    """Random statements of one owner, over the names of its slots."""

    def __init__(self, rng, slots, gates, labels):
        self.rng, self.slots, self.gates, self.labels = rng, slots, gates, labels

    def number(self):
        near, far = self.rng.randrange(-2048, 2048), self.rng.randrange(2 ** 32)
        return self.rng.choice([0, 1, 2, 3, 4, 8, 16, -1, -4, -8, -16, near, near, far])

    def small(self):
        return self.rng.choice([0, 0, 0, 4, 8, -4, -8, -16, 1, 2, 12, self.rng.randrange(-64, 64)])

    def register(self):
        return self.rng.choice(PLAIN if self.rng.random() < 0.85 else REGISTERS)

    def port_lines(self):
        """A register's word at the port, so that it is told; or what a device reads."""
        if self.rng.random() < 0.2:
            at = self.rng.choice([0, 0, 4, 4, 8, 2])
            return [f"cimport ct0, {self.rng.choice(['pins', 'clock'])}",
                    f"{self.rng.choice(['lw', 'lw', 'lhu', 'clc', 'sw', 'csc'])} {self.register()}, {at}(ct0)"]
        return ["cimport ct0, uart0", f"csw {self.rng.choice(REGISTERS)}, 0(ct0)"]

    def call_lines(self):
        return [f"cimport ct1, {self.rng.choice(self.gates)}", "cimport ct2, switch", "cjalr cra, ct2"]

    def service_lines(self):
        rng, name = self.rng, self.rng.choice(SERVICES)
        word = rng.choice([["cmove ca0, cgp"], ["cimport ca0, box"], [f"cincaddrimm ca0, cgp, {self.small()}"], []])
        value = [f"li a1, {rng.choice([0, 0, 0, 1, 2, -1])}"] if rng.random() < 0.8 else []
        return (word if name != "sleep" else [f"li a0, {rng.randrange(4)}"]) + value + [
            f"cimport ct2, {name}", rng.choice(["cjalr cra, ct2"] * 5 + ["cjr ct2", "cjalr ct0, ct2"])]

    def by_quota(self, name, argument, *after):
        return ["cimport ca0, q", argument, f"cimport ct2, {name}", "cjalr cra, ct2", *after]

    def object_lines(self):
        """An object is allocated, kept in a place, perhaps used, and perhaps freed."""
        rng, register = self.rng, f"c{self.register()}"
        place = rng.choice(["0(cgp)", "32(cgp)", "40(cgp)", "-8(csp)"])
        size = rng.choice([1, 8, 16, 24, 100, 600, 1000, 5000, self.number()])
        out = self.by_quota("allocate", f"li a1, {size}", f"csc ca0, {place}")
        out += rng.choice([[], self.access_lines(), self.capability_lines(), self.call_lines(),
                           [f"cmove {register}, ca0"], ["csc ca0, 0(ca0)"]])
        if rng.random() < 0.7:
            out += self.by_quota("free", f"clc ca1, {place}")
        more = [[], self.port_lines(), self.by_quota("remaining", "nop"), [f"clc {register}, {place}"]]
        return out + rng.choice(more)

    def token_lines(self):
        """A key and a token of it are made and kept in places; one is opened or freed, and perhaps used or freed so."""
        rng = self.rng
        key, token = rng.choice(["0(cgp)", "48(cgp)"]), rng.choice(["8(cgp)", "56(cgp)", "-24(csp)"])
        out = self.by_quota("token_key", "nop", f"csc ca0, {key}") if rng.random() < 0.6 else []
        if rng.random() < 0.8:
            out += [f"clc ca2, {key}"]
            out += self.by_quota("token_new", f"li a1, {rng.choice([8, 24, 100, 0])}", f"csc ca0, {token}")
        first, second = rng.choice([(key, token)] * 6 + [(token, key), (key, key)])
        if rng.random() < 0.7:
            out += [f"clc ca0, {first}", f"clc ca1, {second}", "cimport ct2, token_open", "cjalr cra, ct2"]
            out += rng.choice([[], ["csw a2, 0(ca0)", "clw a2, 0(ca0)"], ["csc ca0, 32(cgp)"],
                               ["cmove ca1, ca0", *self.by_quota("free", "nop")]])
        if rng.random() < 0.5:
            out += [f"clc ca2, {second}", *self.by_quota("token_free", f"clc ca1, {first}")]
        return out + rng.choice([[], self.port_lines(), self.by_quota("remaining", "nop")])

    def access_lines(self):
        rng = self.rng
        through = rng.choice(["cgp", "csp", "cgp", "csp", f"c{self.register()}"])
        within, below = rng.choice([0, 0, 8, 4, 12, -8, -16, self.small()]), self.small() - 16 * rng.randrange(3)
        at = within if through == "cgp" else below
        op = rng.choice(["clw", "csw", "clc", "csc", "csc", "clc", "lb", "lbu", "lh", "lhu", "sb", "sh"])
        return [f"{op} {self.register()}, {at}({through})"]

    def capability_lines(self):
        rng, to = self.rng, self.register()
        return [rng.choice([
            f"{rng.choice(MAKES)} {to}, {rng.choice(REGISTERS)}, {rng.choice(REGISTERS)}",
            f"cincaddrimm {to}, {rng.choice(REGISTERS)}, {self.small()}",
            f"csetboundsimm {to}, {rng.choice(REGISTERS)}, {rng.choice([0, 4, 8, 16, 32, rng.randrange(4096)])}",
            f"cmove {to}, {rng.choice(REGISTERS)}", f"ccleartag {to}, {rng.choice(REGISTERS)}",
            f"{rng.choice(LOOKS)} {to}, {rng.choice(REGISTERS)}", f"auipcc {to}, {rng.randrange(-2, 2)}",
            f"auicgp {to}, {rng.randrange(-2, 2)}"])]

    def integer_lines(self):
        rng, to = self.rng, self.register()
        return [rng.choice([
            f"{rng.choice(INTEGER)} {to}, {rng.choice(REGISTERS)}, {rng.choice(REGISTERS)}",
            f"{rng.choice(['addi', 'slti', 'sltiu', 'xori', 'ori', 'andi'])} {to}, {rng.choice(REGISTERS)}, "
            f"{rng.randrange(-2048, 2048)}",
            f"{rng.choice(['slli', 'srli', 'srai'])} {to}, {rng.choice(REGISTERS)}, {rng.randrange(32)}",
            f"li {to}, {self.number()}", f"lui {to}, {rng.randrange(-524288, 524288)}"])]

    def jump_lines(self):
        rng = self.rng
        where = rng.choice(self.labels)
        return [rng.choice([
            f"{rng.choice(BRANCHES)} {rng.choice(REGISTERS)}, {rng.choice(REGISTERS)}, {rng.choice([8, 12, 16])}",
            f"jal {rng.choice(['ct0', 'cra', 'ct1'])}, {where}", "cret", "cmove cra, cs0",
            f"cjr c{self.register()}", f"cjalr cra, c{self.register()}", "fence", "ebreak", "ecall",
            "cimport ct2, crit\ncjalr cra, ct2"])]

    def statement(self):
        rng = self.rng
        kind = rng.choices([self.port_lines, self.call_lines, self.service_lines, self.object_lines, self.token_lines,
                            self.access_lines, self.capability_lines, self.integer_lines, self.jump_lines,
                            lambda: [f"cimport c{self.register()}, {rng.choice(self.slots)}"]],
                           [3, 2, 1, 2, 2, 3, 4, 2, 1, 2])[0]
        return [part for line in kind() for part in line.split("\n")]


def handler_of(rng, code):
    """An error handler: it shows words of the record, does a few things, and ends, most often with an answer."""
    out = ["handler:", "cmove cs0, cra"]
    for _ in range(rng.randrange(5)):
        out += [f"clw a3, {4 * rng.randrange(20)}(csp)", *code.port_lines()] if rng.random() < 0.4 else code.statement()
    answers = ["li a0, 1", rng.choice(["nop", f"cmove ca1, c{code.register()}", "clc ca1, 8(cgp)"])]
    out += answers if rng.random() < 0.75 else []
    back = ["clw a1, 64(csp)", "addi a1, a1, 4", "cla cs1, handler", "csetaddr cs1, cs1, a1", "cjr cs1"]
    return out + rng.choice([["cmove cra, cs0", "cret"]] * 5 + [back, ["ebreak"]])


def text_of(rng, slots, gates, exports):
    """Code with a few statements at each export, which ends by its way back."""
    code, out = Code(rng, slots, gates, exports), []
    for export in exports:
        if export == "handler":
            out += handler_of(rng, code)
            continue
        out += [f"{export}:", "cmove cs0, cra"]
        if rng.random() < 0.7:
            out.append(f"cincaddrimm csp, csp, {-16 * rng.randrange(4)}")
        for _ in range(rng.randrange(4, 16)):
            out += code.statement()
        out += ["cmove cra, cs0", "cret"]
    return out


def exports_of(rng, names):
    return [{"name": name, "at": name, "args": rng.randrange(7), "stack": rng.choice([0, 0, 16, 100, 300]),
             "posture": rng.choice(["enabled", "enabled", "disabled"]), "passes": rng.choice(["data", "capabilities"])}
            for name in names]


def firmware(rng, name):
    devices = [{"name": device, "kind": kind, "base": 0x10000000 + 16 * n} for n, (device, kind) in enumerate(DEVICES)]
    owners = []
    for own, other in (("a", "b"), ("b", "a")):
        names = [f"{own}{n}" for n in range(rng.randrange(1, 4))]
        owners.append((own, other, names + ["handler"] * (rng.random() < 0.8)))
    out = []
    for n, (own, other, names) in enumerate(owners):
        gates = [f"{which}.{export}" for which, export in
                 [(other, rng.choice(owners[1 - n][2])), (other, owners[1 - n][2][0]), (own, names[0])]]
        imports = [{"as": f"g{k}", "call": gate} for k, gate in enumerate(gates)]
        imports += [{"as": service, "service": service} for service in SERVICES + HEAP]
        rights = {"uart0": ["W"], "pins": ["R", "W", "RW"], "clock": ["R", "W", "RW"]}
        imports += [{"as": device, "device": device, "rights": rng.choice(rights[device])} for device, _ in DEVICES]
        imports += [{"as": "box", "shared": "box", "rights": rng.choice(["R", "RW", "RWC", "RC", "W"])},
                    {"as": "secret", "sealed": "secret"}, {"as": "crit", "library": "guard.crit"}]
        slots = ["switch", "q", "key13"] + [row["as"] for row in imports]
        code = text_of(rng, slots, [row["as"] for row in imports[:3]], names) + [".data"] + [
            f".word {rng.randrange(2 ** 32)}" for _ in range(rng.randrange(5))]
        out.append(compartment(own, imports, exports_of(rng, names), *code, globals=64, keys=[13],
                               quotas=[{"name": "q", "limit": rng.choice([500, 3000, 100000])}]))
    threads = [{"name": f"t{n}", "entry": f"{own}.{rng.choice(names)}", "priority": rng.randrange(3),
                "stack": rng.choice([256, 256, 512, 1008, 2000]), "frames": rng.randrange(1, 6)}
               for n, (own, _, names) in enumerate(rng.choice(owners) for _ in range(rng.randrange(1, 6)))]
    guard = {"name": "guard", "code": {"lines": ["crit: jal ct0, 4", rng.choice(["nop", "addi a0, a0, 1"]), "cret"]},
             "exports": [{"name": "crit", "at": "crit", "posture": rng.choice(["inherit", "enabled", "disabled"])}]}
    whole = {"firmware": name, "version": 2, "ram": {"base": 0x80000000, "size": 32768},
             "quantum": rng.choice([1, 3, 7, 20, 100]), "sweep": rng.choice([1, 7, 64, 500, 4096]), "devices": devices,
             "shared": [{"name": "box", "size": 16}], "sealed": [{"name": "secret", "type": 13, "bytes": "00"}],
             "compartments": out, "libraries": [guard], "threads": threads}
    for owner in out + [guard]:
        owner["code"] = source(f"{name}_{owner['name']}.s", owner["code"]["lines"])
    return whole


def main():
    rng, total = random.Random(SEED), {}
    options = []
    stdout, sys.stdout = sys.stdout, open(os.path.join(OUT + "-list"), "w")
    for n in range(COUNT):
        whole = firmware(rng, f"r{n}")
        found = modelled(image(whole), STEPS)
        for line in found:
            word = line.split()[1]
            total[word] = total.get(word, 0) + 1
        case(f"r{n}", ["run", "{}", str(STEPS)], json.dumps(whole), lines(report(whole), *found))
    sys.stdout.close()
    sys.stdout = stdout
    with open(OUT + "-list") as file:
        for line in file:
            options += ["--data", line.strip()]
    print(OUT, total)
    if PROGRAM:
        answers = os.path.join(HERE, "..", "tests", "answers.py")
        sys.exit(subprocess.run([sys.executable, "-B", answers, OUT, PROGRAM, *options[1::2]]).returncode)
    done = subprocess.run(["rt", "try", "--cases", OUT, *options], cwd=os.path.join(HERE, "..", "crates", "ct_main"))
    sys.exit(done.returncode)


if __name__ == "__main__":
    main()
