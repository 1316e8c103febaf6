#!/usr/bin/env python3
"""Worked rows of each status with which each command can end, worked out from docs/use/errors.md.

    statuses.py OUT     writes the cases that cases.py tells of

The row status_N_COMMAND is a call of the command that ends with N. Status 10 is memory.py's, of each command too.
"""
import json

from cases import case, ended, image, images, lines, report, sample, source, stored_file, text_of
from firmwares import small_board

TINY, BOARD = sample("tiny"), small_board()
BYTES, RUN = image(TINY), lines(report(TINY)) + text_of("tiny", "run.txt")
KEPT, BROKEN, NO_FORM = (stored_file(f"status_{name}.policy", rule + "\n") for name, rule in (
    ("kept", "apart app driver"), ("broken", "apart hex app"), ("no_form", "frob")))
STEPS_FALL = stored_file("status.script", "5 uart0 1\n4 uart0 1\n")
LARGE = stored_file("status_large", bytes(16_777_217))

# The words of each command, its file's data, and what is due to them; the line of demo is found in heap.py too.
CALLS = {
    "audit": (["{}"], json.dumps(TINY), lines(report(TINY))), "image": (["{}"], json.dumps(TINY), BYTES),
    "run": (["{}", "100"], json.dumps(TINY), RUN), "runimage": (["{}", "100"], BYTES, RUN),
    "upgrade": (["{}"], BYTES, images.upgraded(BYTES)),
    "why": (["{}", "hex", "app"], json.dumps(BOARD), "path hex app\n"),
    "check": (["{}", KEPT], json.dumps(BOARD), "allow\n"),
    "demo": (["0"], "", lines(ended("finished", 112, ticks=2, calls=2, devices=4, allocations=4, frees=4)))}
OF_DESCRIPTIONS, OF_IMAGES = ("audit", "image", "run", "why", "check"), ("runimage", "upgrade")


def ends(status, command, wanted, words=None, data=None, room=None):
    """A row of a command, with other words or data than what it is done with."""
    its_words, its_data, _ = CALLS[command]
    case(f"status_{status}_{command}", [command, *(its_words if words is None else words)],
         its_data if data is None else data, wanted, room)


def named(command, name):
    """The words of a command with this file in the place of the first."""
    return [name, *CALLS[command][0][1:]]


for command, (words, data, wanted) in CALLS.items():
    ends(0, command, wanted)
    ends(1, command, "refused 1 usage\n", words[:-1])
    ends(9, command, wanted, room=len(wanted) - 1)
for command in OF_DESCRIPTIONS + OF_IMAGES:
    ends(2, command, "refused 2 read nosuch\n", named(command, "nosuch"))
    ends(3, command, f"refused 3 large {LARGE}\n", named(command, LARGE))

frob = dict(TINY, compartments=[dict(TINY["compartments"][0], code=source("status.s", ["main: nop", "frob a0"]),
                                     exports=[{"name": "main", "at": "main"}])])
for command in OF_DESCRIPTIONS:
    ends(4, command, "refused 4 description F1 firmware 0 0\n", data="{")
    ends(5, command, "refused 5 assembly A2 app 2\n", data=json.dumps(frob))
    ends(6, command, "refused 6 link L2 656 640\n", data=json.dumps(dict(TINY, ram=dict(TINY["ram"], size=640))))
for command in OF_IMAGES:
    ends(7, command, "refused 7 image I2 411\n", data=BYTES[:411])
for command in "run", "runimage":
    ends(8, command, "refused 8 script S2 2\n", CALLS[command][0] + [STEPS_FALL])
ends(11, "why", "refused 11 name\n", ["{}", "app", "none"])
ends(12, "check", "denied 1 path hex app\n", ["{}", BROKEN])
ends(13, "check", "refused 13 policy P1 1\n", ["{}", NO_FORM])
