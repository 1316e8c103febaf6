#!/usr/bin/env python3
"""Mistakes planted in a firmware, and the place of each by hand: explain.py must point there.

    planted.py             explains each mistake, and writes all of that
    planted.py PROGRAM     has capfw refuse each one too, whose line must be the one that stands here

A mistake is a text of a file in place of another one. Before the character at which it is to be found stands the mark
»; behind it comes a hint that must be given, or nothing. Of an image it is a byte, and its field by name.
Status 0: each is placed. Status 1: what isn't is written to standard error.
"""
import os
import shutil
import subprocess
import sys
import tempfile

sys.dont_write_bytecode = True
from paths import HERE  # noqa: E402
from model import images  # noqa: E402
from places import calls, refusals  # noqa: E402

FIRMWARE = os.path.join(HERE, "planted")
COUNTS = {"F": 10, "A": 8, "L": 4, "S": 3, "P": 2, "I": 6}
WORDS = {
    ".json": ["audit", "gate.json"], ".s": ["audit", "gate.json"], ".policy": ["check", "gate.json", "gate.policy"],
    ".script": ["run", "gate.json", "100", "gate.script"], ".image": ["runimage", "tiny.image", "100"]}

# The line of capfw, the file, what stands there, what is put in its place, a hint.
DESCRIPTION = [
    ("F1 firmware 0 0", '"frames": 2}\n  ]', '"frames": 2},\n  »]', "a comma after the last one must go"),
    ("F1 firmware 0 0", '"quantum": 50,', '"quantum": 50, »// steps', "JSON has no comments"),
    ("F1 firmware 0 0", '"base": 268435456', '"base": 0»x10000000', "write 268435456"),
    ("F1 firmware 0 0", '"uart0", "kind"', "»'uart0', \"kind\"", "double quotes"),
    ("F1 firmware 0 0", '"size": 64}]', '"size": 64}»}', "a comma or ] is wanted"),
    ("F2 firmware 0 0", '"quantum": 50', '"quantum": »"50"', "without quotes"),
    ("F2 firmware 0 0", '{\n  "firmware": "gate",', '»{\n  "firmwares": "gate",',
     'is "firmwares" meant to be "firmware"?'),
    ("F2 ram 0 0", '"size": 16384', '"size": »16384.0', "without quotes, sign, point"),
    ("F2 device 1 0", '"gpio"', '»"pio"', 'did you mean "gpio"?'),
    ("F2 shared 0 0", '{"name": "pool", "size": 64}', '»{"name": "pool"}', "size is missing"),
    ("F2 sealed 0 0", '"0aff"', '»"0AFF"', "lower-case"),
    ("F2 compartment 0 0", '{"file": "net.s"}', '»{"file": "net.s", "words": []}', "and not both"),
    ("F2 import 0 0", '{"as": "nic", "device": "pins", "rights": "RW"}', '»{"as": "nic", "device": "pins"}',
     "rights are missing"),
    ("F2 import 0 3", '{"as": "allocate", "service": "allocate"}', '»{"as": "allocate"}', "it has none"),
    ("F2 key 1 0", '"keys": [13]', '"keys": [»"13"]', "a number is wanted"),
    ("F2 export 1 0", '"passes": "data"', '"passes": »"date"', 'did you mean "data"?'),
    ("F2 lexport 0 0", '"disabled"', '»"off"', "inherit, enabled, disabled"),
    ("F2 thread 1 0", '"priority": 1,', '"priority": »-1,', "sign"),
    ("F3 firmware 0 0", '"quantum": 50,', '"quantum": 50, »"quantums": 50,', None),
    ("F3 compartment 0 0", '"globals": 32', '»"global": 32', 'did you mean "globals"?'),
    ("F3 import 1 1", '"sealed": "seed"', '"sealed": "seed", »"rights": "R"', "device and shared alone"),
    ("F3 thread 0 0", '"frames": 4', '"frames": 4, »"code": "net.s"', None),
    ("F4 firmware 0 0", '"gate"', '»"Gate"', '"gate" is one'),
    ("F4 device 0 0", '"uart0", "kind"', '»"uart-0", "kind"', '"-" at 5'),
    ("F4 import 0 0", '"nic"', '»"0nic"', "begins with no"),
    ("F4 thread 0 0", '"rx"', '»"receives_what_comes_from_the_network"', "36 characters"),
    ("F5 compartment 1 0", '"name": "logger"', '"name": »"net"', "before it at gate.json:14:15"),
    ("F5 import 0 4", '"as": "free"', '"as": »"allocate"', "before it at gate.json:21:16"),
    ("F5 quota 0 0", '"heap"', '»"switch"', "by itself"),
    ("F5 thread 1 0", '"tx"', '»"crit"', "compartments, libraries and threads"),
    ("F6 ram 0 0", '"size": 16384', '"size": »16390', "16384 and 16400 are"),
    ("F6 firmware 0 0", '"quantum": 50', '"quantum": »0', "1 to 1000000"),
    ("F6 firmware 0 0", '"quantum": 50', '"quantum": 50, "sweep": »32', "version 2 allows more"),
    ("F6 key 1 0", '"keys": [13]', '"keys": [»16]', "13 to 15"),
    ("F6 export 1 0", '"args": 1', '"args": »7', "0 to 6"),
    ("F6 thread 0 0", '"stack": 512', '"stack": »1000', "992 and 1008 are"),
    ("F6 thread 0 0", '"priority": 2', '"priority": »99', "0 to 15"),
    ("F6 thread 0 0", '"frames": 4', '"frames": »0', "1 to 96"),
    ("F6 thread 1 0", '"priority": 1, "stack": 256, "frames": 2', '"priority": 1, "stack": »248, "frames": 97',
     "256 to 32752"),
    ("F7 import 0 2", '"logger.put"', '»"loger.put"', 'did you mean "logger.put"?'),
    ("F7 import 0 0", '"device": "pins"', '"device": »"pin"', 'did you mean "pins"?'),
    ("F7 import 0 5", '"crit.swap"', '»"logger.put"', '{"call": "logger.put"}'),
    ("F7 import 0 2", '"logger.put"', '»"logger"', "logger.put, logger.serve"),
    ("F7 thread 0 0", '"net.poll"', '»"net.pol"', 'did you mean "net.poll"?'),
    ("F7 import 1 1", '"sealed": "seed"', '"sealed": »"pool"', '{"shared": "pool"}'),
    ("F8 import 0 0", '"rights": "RW"}', '"rights": »"WR"}', 'did you mean "RW"?'),
    ("F8 import 1 0", '"rights": "W"}', '"rights": »"RWC"}', "rights of a device: R, W, RW"),
    ("F9 import 0 3", '"service": "allocate"', '"service": »"alloc"', 'did you mean "allocate"?'),
    ("F9 import 0 4", '"service": "free"', '"service": »"switch"', "the first slot"),
    ("F10 device 1 0", "268435472", "»268435470", "268435456 is"),
    ("F10 device 2 0", "268435488", "»2147483648", "meets RAM"),
    ("F10 ram 0 0", '"base": 2147483648', '"base": »65536', "native entries"),
]
SOURCE = [
    ("A1 net 7", "net.s", "clg ct1, last\n    csw", "clg ct1, last»; a word\n    csw", "a comment begins with #"),
    ("A1 net 10", "net.s", "li a1, 24", "li a1, »'0'", "65"),
    ("A1 net 10", "net.s", "li a1, 24", "li a1, 16»+8", "write the number"),
    ("A1 logger 1", "logger.s", "serial port.", "serial port »–", "ASCII"),
    ("A2 logger 5", "logger.s", "cret\nserve", "»ret\nserve", "write cret"),
    ("A2 net 3", "net.s", "cincaddrimm csp, csp, -16", "»cincoffsetimm csp, csp, -16", "write cincaddrimm"),
    ("A2 crit 3", "crit.s", "clw a2, 0(ca0)", "»cldw a2, 0(ca0)", None),
    ("A2 net 1", "net.s", "# Reads", "».globl poll # Reads", "an export names its label"),
    ("A3 crit 4", "crit.s", "csw a1, 0(ca0)", "csw a1, »(ca0)", "csw rs2, N(rs1)"),
    ("A3 net 16", "net.s", "beqz a0, quiet", "beqz a0»", "beqz rs, target"),
    ("A3 net 31", "net.s", "    .word 0", "    »mv a0, a1\n    .word 0", ".text before it"),
    ("A3 net 31", "net.s", ".word 0", ".word »last", "a number is wanted"),
    ("A3 crit 5", "crit.s", "mv a0, a2", "mv a0, »a6", "the machine has a0 to a5"),
    ("A3 crit 5", "crit.s", "mv a0, a2", "mv »cs2, a2", "s0, s1 and t0 to t2"),
    ("A4 net 10", "net.s", "li a1, 24", "addi a1, zero, »4096", "li loads any number"),
    ("A4 net 6", "net.s", "4(ct0)", "»-4096(ct0)", "-2048 to 2047"),
    ("A5 logger 6", "logger.s", "serve:", "»put:", "before it in line 2"),
    ("A6 net 16", "net.s", "beqz a0, quiet", "beqz a0, »quite", 'did you mean "quiet"?'),
    ("A6 net 7", "net.s", "clg ct1, last\n    csw", "cla ct1, »last\n    csw", "clg takes one of the data"),
    ("A7 crit 5", "crit.s", "mv a0, a2", "mv a0, »x18", "c0 to c15"),
    ("A8 net 32", "net.s", "    .word 0", "    .word 0\n    ».zero 1048576", "the data ends at 1048580"),
]
LINK = [
    ("L1 net 0", "gate.json", '"at": "poll"', '"at": »"pol"', 'did you mean "poll"?'),
    ("L1 logger 1", "gate.json", '"at": "serve"', '"at": »6', "a multiple of 4 below the text's"),
    ("L2 1984 1024", "gate.json", '"size": 16384', '"size": »1024', "1984 are enough"),
    ("L3 net 11", "net.s", "cimport ct2, allocate", "cimport ct2, »alocate", 'did you mean "allocate"?'),
    ("L3 crit 2", "crit.s", "swap:", "swap: cimport ct0, »port", None),
    ("L4 crit 0", "crit.s", "    cret", "    cret\n.data\n    ».word 0", "data stand in a compartment"),
]
POLICY = [
    ("P1 1", "device uart0 only", "»devices uart0 only", 'did you mean "device"?'),
    ("P1 1", "device uart0 only logger", "»# who may write\ndevice uart0 only logger", "no comments"),
    ("P1 2", "pins only net", "pins »net", '"only" is wanted'),
    ("P1 6", "total 256", "total »0256", "leading zero"),
    ("P2 1", "uart0", "»uart1", 'did you mean "uart0"?'),
    ("P2 3", "call logger.put", "call »crit.swap", "an export of a library"),
    ("P2 8", "apart logger net", "apart »rx net", "it is a thread"),
]
SCRIPT = [
    ("S1 2", "40 uart0 65\n40", "40 » uart0 65\n40", "one space"),
    ("S1 4", "90 pins 255", "90 pins »256", "0 to 255"),
    ("S1 4", "255\n", "255»", "no line feed"),
    ("S2 4", "90 pins", "»39 pins", "sort -s -n"),
    ("S3 2", "40 uart0 65\n40", "40 »uart 65\n40", 'did you mean "uart0"?'),
    ("S3 1", "2 pins", "2 »clock", "it is a timer"),
]
# The line, where a number of 32 bits is put, the number, and the field; None for an image that is cut or longer.
IMAGE = [
    ("I1 0", 0, 0, "begin"), ("I1 0", 4, 9, "begin"), ("I2 400", 400, None, "thread t: export there"),
    ("I2 413", 413, None, "end"), ("I3 32", 32, 0, "quantum"), ("I3 40", 40, 264, "RAM's size"),
    ("I3 288", 288, 20, "compartment app: export 0: offset"), ("I3 404", 404, 16, "thread t: priority"),
    ("I4 48", 48, 0x80000280, "base of the heap"), ("I4 172", 172, 0x80000030, "compartment app: base of its globals"),
    ("I5 192", 196, 2, "compartment app: slot 0, switch"), ("I5 396", 396, 1, "thread t: compartment that it enters"),
    ("I6 240", 240, 0x2802, "compartment app: slot 1, uart"),
]
# Other words, the line, and the hint.
OTHER = [
    (["audits", "gate.json"], "refused 1 usage", "words:1:1", 'did you mean "audit"?'),
    (["run", "gate.json", "0"], "refused 1 usage", "words:1:15", "1 to 4000000000"),
    (["why", "gate.json", "nets", "logger"], "refused 11 name", "words:1:15", 'did you mean "net"?'),
    (["why", "gate.json", "net", "crit"], "refused 11 name", "words:1:19", "it is a library"),
    (["audit", "gat.json"], "refused 2 read gat.json", "words:1:7", 'did you mean "gate.json"?'),
    (["check", "gate.policy", "gate.json"], "refused 4 description F1 firmware 0 0", "gate.policy:1:1",
     "it looks like a policy: check DESC POLICY"),
    (["run", "gate.script", "100", "gate.json"], "refused 4 description F1 firmware 0 0", "gate.script:1:3",
     "it looks like a script: run DESC LIMIT SCRIPT"),
    (["upgrade", "gate.json"], "refused 7 image I1 0", "gate.json byte 0: begin", "it looks like a description: audit"),
    (["run", "gate.json", "100", "gate.policy"], "refused 8 script S1 1", "gate.policy:1:19", "it looks like a policy"),
    (["check", "gate.json", "gate.script"], "refused 13 policy P1 1", "gate.script:1:1", "it looks like a script"),
]
# What is changed in several files: the words, the line, where it is found, a hint, and of each file a text and another.
SEVERAL = [
    (["audit", "gate.json"], "refused 6 link L3 net 11", "net.s:11:18", '"imports" stands twice, and the last one holds',
     {"gate.json": ('"quotas": [{"name": "heap"', '"imports": [{"as": "nic", "device": "pins", "rights": "RW"}, '
                    '{"as": "log", "call": "logger.put"}], "quotas": [{"name": "heap"')}),
    (["check", "gate.json", "gate.policy"], "denied 8 path logger net", "gate.policy:8:1",
     "net calls logger.put, which passes capabilities", {
         "gate.json": ('"stack": 64, "passes": "data"', '"stack": 64'),
         "gate.policy": ("data logger.put\n", "quota total 256\n")}),
]


class Planted:
    """A mistake: the words of the call, the line of capfw, where it is to be found, and what must be told."""

    def __init__(self, words, line, head, hint=None, files=()):
        self.words, self.line, self.head, self.hint, self.files = words, line, head, hint, dict(files)


def in_text(status, told, file, old, new, hint):
    """A mistake in a file of the firmware."""
    with open(os.path.join(FIRMWARE, file), encoding="utf-8") as opened:
        text = opened.read()
    assert old in text and new.count("»") == 1, (old, new)
    text = text.replace(old, new, 1)
    before = text[:text.index("»")]
    head = f"{file}:{before.count(chr(10)) + 1}:{len(before) - before.rfind(chr(10))}: "
    words = WORDS[os.path.splitext(file)[1]]
    return Planted(words, f"refused {status} {told}", head, hint, {file: text.replace("»", "").encode()})


def replaced(file, old, new):
    """A file of the firmware with one text in place of another."""
    with open(os.path.join(FIRMWARE, file), encoding="utf-8") as opened:
        text = opened.read()
    assert old in text, (file, old)
    return text.replace(old, new, 1).encode()


def in_image(told, at, value, name):
    data = images.tiny()
    data = (data + b"\0")[:at] if value is None else data[:at] + images.number(value) + data[at + 4:]
    head = f"tiny.image byte {told.split(' ')[1]}: {name}: "
    return Planted(WORDS[".image"], f"refused 7 image {told}", head, None, {"tiny.image": data})


def planted():
    for told, old, new, hint in DESCRIPTION:
        yield in_text("4 description", told, "gate.json", old, new, hint)
    for status, rows in (("5 assembly", SOURCE), ("6 link", LINK)):
        for told, file, old, new, hint in rows:
            yield in_text(status, told, file, old, new, hint)
    for told, old, new, hint in POLICY:
        yield in_text("13 policy", told, "gate.policy", old, new, hint)
    for told, old, new, hint in SCRIPT:
        yield in_text("8 script", told, "gate.script", old, new, hint)
    for row in IMAGE:
        yield in_image(*row)
    for words, line, head, hint in OTHER:
        yield Planted(words, line, head, hint)
    for words, line, head, hint, changed in SEVERAL:
        yield Planted(words, line, head, hint, {file: replaced(file, *pair) for file, pair in changed.items()})


def write_firmware(row, folder):
    """The firmware with the mistake, in a folder."""
    for file in os.listdir(FIRMWARE):
        if os.path.splitext(file)[1] in WORDS:
            shutil.copyfile(os.path.join(FIRMWARE, file), os.path.join(folder, file))
    for file, data in row.files.items():
        with open(os.path.join(folder, file), "wb") as opened:
            opened.write(data)


def fault(row, program, out):
    """What is wrong with the explanation of a mistake, or with the program's line."""
    if program:
        ran = subprocess.run([program, *row.words], capture_output=True)
        if ran.stdout.decode() != row.line + "\n":
            return f"capfw writes {ran.stdout!r}"
    call = calls.Call(row.words)
    lines = [line for it in refusals.explained(call, row.line) + refusals.warned(call) for line in it.lines()]
    out += [row.line, *lines]
    if not lines or not (lines[0] + ": ").startswith(row.head):
        return f"due is {row.head}"
    return f"due is {row.hint}" if row.hint and not any(row.hint in line for line in lines) else None


def not_planted(rows):
    """The numbers of faults of which no mistake is planted."""
    told = {word for row in rows for word in row.line.split(" ")}
    due = [f"{letter}{number}" for letter, count in COUNTS.items() for number in range(1, count + 1)]
    return [f"no mistake of {number} is planted" for number in due if number not in told]


def main():
    program = os.path.realpath(sys.argv[1]) if len(sys.argv) > 1 else None
    rows, out = list(planted()), []
    faults = not_planted(rows)
    for row in rows:
        with tempfile.TemporaryDirectory() as folder:
            write_firmware(row, folder)
            os.chdir(folder)
            told = fault(row, program, out)
            if told:
                faults.append(f"{row.line}: {told}; " + " / ".join(out[out.index(row.line) + 1:][:4]))
            os.chdir(HERE)
    print("\n".join(out))
    print(f"{len(rows) - len(faults)} of {len(rows)} mistakes are placed")
    print("\n".join(faults), end="\n" * bool(faults), file=sys.stderr)
    return 1 if faults else 0


if __name__ == "__main__":
    sys.exit(main())
