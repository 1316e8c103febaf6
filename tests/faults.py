#!/usr/bin/env python3
"""Worked rows of files that can't be read and of output that can't be written, worked out from docs/use/errors.md.

    faults.py OUT     writes the cases that cases.py tells of
"""
import copy
import itertools
import json

from cases import (called, calls, case, compartment, ended, export, gate, image, images, lines, modelled, off, report,
                   sample, source, stored_file, text_of, thread)
from firmwares import small_board

TINY = sample("tiny")
BOARD = small_board()
POLICY = stored_file("unwritten.policy", "device uart0 only driver\nquota app 63\napart hex app\n")
KEPT = stored_file("unwritten_kept.policy", "apart app driver\n")
COMMANDS = {"audit": [], "image": [], "run": ["100"], "why": ["hex", "app"], "check": [POLICY]}
UNREADABLE = [("missing", "nosuch"), ("folder", ".")]


# ---- files that can't be read: the first of them is named, and those after it aren't there either

def unread(name, words, data, file):
    case("unread_" + name, words, data, f"refused 2 read {file}\n")


def lacking(first, file):
    """The board, whose sources are there up to this one, which is a file that can't be read."""
    firmware = copy.deepcopy(BOARD)
    owners = firmware["compartments"] + firmware["libraries"]
    for number in range(first, len(owners)):
        owners[number]["code"] = {"file": file if number == first else f"nosuch_{number}.s"}
    return json.dumps(firmware)


# Those that audit finds missing are rows of rows.py.
for command, more in COMMANDS.items():
    for kind, file in UNREADABLE[command == "audit":]:
        unread(f"{command}_{kind}", [command, file, *more], "", file)
        for first in range(3):
            unread(f"{command}_{kind}_{first}", [command, "{}", *more], lacking(first, file), file)
for kind, file in UNREADABLE:
    unread(f"runimage_{kind}", ["runimage", file, "100"], "", file)
    unread(f"upgrade_{kind}", ["upgrade", file], "", file)
    unread(f"check_{kind}_policy", ["check", "{}", file], json.dumps(BOARD), file)
    for command, data in (("run", json.dumps(BOARD)), ("runimage", image(TINY))):
        unread(f"{command}_{kind}_before_script", [command, file, "100", "nosuch.script"], "", file)
        unread(f"{command}_{kind}_script", [command, "{}", "100", file], data, file)


# ---- output that can't be written: of a run what one event tells is one piece, and one write

def unwritten(name, words, data, *pieces):
    """Rows of an output that takes nothing, one byte, all up to the end of each piece, and a byte less than that."""
    ends = list(itertools.accumulate(len(piece) for piece in pieces))
    whole = b"".join(piece if isinstance(piece, bytes) else piece.encode() for piece in pieces)
    for room in ("full", "closed", "pipe", *sorted({0, 1, *ends, *(end - 1 for end in ends)})):
        case(f"unwritten_{name}_{room}", words, data, whole, room)


SMALL, BYTES, REPORT = json.dumps(TINY), image(TINY), lines(report(TINY))
RUN = REPORT, *text_of("tiny", "run.txt").splitlines(keepends=True)
assert [len(piece) for piece in RUN] == [951, 37, 77]
SCRIPT = stored_file("unwritten.script", "2 uart0 65\n")
STEPS_FALL = stored_file("steps_fall.script", "5 uart0 1\n4 uart0 1\n")

unwritten("audit", ["audit", "{}"], SMALL, REPORT)
unwritten("image", ["image", "{}"], SMALL, BYTES)
unwritten("why", ["why", "{}", "hex", "app"], json.dumps(BOARD), "path hex app\n")
unwritten("run", ["run", "{}", "100"], SMALL, *RUN)
unwritten("runimage", ["runimage", "{}", "100"], BYTES, *RUN)
unwritten("upgrade", ["upgrade", "{}"], BYTES, images.upgraded(BYTES))
unwritten("allow", ["check", "{}", KEPT], json.dumps(BOARD), "allow\n")
unwritten("demo", ["demo", "0"], "",
          lines(ended("finished", 112, ticks=2, calls=2, devices=4, allocations=4, frees=4)))
unwritten("run_script", ["run", "{}", "100", SCRIPT], SMALL, *RUN)
unwritten("runimage_script", ["runimage", "{}", "100", SCRIPT], BYTES, *RUN)
unwritten("refused_1", ["audit"], "", "refused 1 usage\n")
unwritten("refused_2", ["audit", "nosuch.json"], "", "refused 2 read ", "nosuch.json", "\n")
unwritten("refused_4", ["audit", "app.s"], "", "refused 4 description F1 firmware 0 0\n")
unwritten("refused_7", ["runimage", "{}", "100"], SMALL, "refused 7 image I1 0\n")
unwritten("refused_8", ["run", "{}", "100", STEPS_FALL], SMALL, "refused 8 script S2 2\n")
unwritten("refused_11", ["why", "{}", "app", "none"], json.dumps(BOARD), "refused 11 name\n")
unwritten("refused_13", ["check", "{}", STEPS_FALL], json.dumps(BOARD), "refused 13 policy P1 1\n")
unwritten("denied", ["check", "{}", POLICY], json.dumps(BOARD), "denied 2 6\n", "denied 3 path hex app\n")

# The call of an export with interrupts off is one event and two lines: its output can end between them.
off_callee = {"firmware": "off", "ram": {"base": 0x80000000, "size": 16384}, "compartments": [
    compartment("a", [gate("b.f")], ["main"]), compartment("b", [], [export("f", posture="disabled")])],
    "threads": [thread("a.main")]}
for owner, text in zip(off_callee["compartments"], (
        ["main: cmove cs1, cra", *calls("f"), "cmove cra, cs1", "cret"], ["f: cret"])):
    owner["code"] = source(f"unwritten_{owner['name']}.s", text)
TWO = called(7, 0, 0, 4, 9), off(7, 0, 1, 9), ended("finished", 12, calls=1)
assert modelled(image(off_callee), 100) == list(TWO)
unwritten("two_lines", ["run", "{}", "100"], json.dumps(off_callee), lines(report(off_callee)), *map(lines, TWO))
