#!/usr/bin/env python3
"""Worked rows of reports: the report line of each of eight images, and how owners reach compartments.

    reports.py OUT     writes the cases that cases.py tells of

Lines and paths are those of model/reports.py, written from docs/use/report.md and image.md alone. What stands here was
worked out by hand, and must be in them.
"""
import json

from cases import case, image, images, lines, modelled, reports, sample, text_of
from firmwares import board, large, sharing

# ---- the report line of each image, and a run of it

PIECES = {
    "board": [
        '{"compartments":["app","driver"],"devices":[{"base":268435456,"kind":"uart","name":"uart0"}],"edges":[],',
        '{"base":2147483888,"kind":"library","length":16,"name":"digit","number":4,"of":"hex.digit","owner":"app",'
        '"rights":"GL LG LM LD MC EX"}',
        '{"base":2147483856,"kind":"call","length":16,"name":"put","number":5,"of":"driver.put","owner":"app",'
        '"rights":"GL LD"}',
        '{"base":65632,"kind":"service","length":8,"name":"allocate","number":6,"of":"allocate","owner":"app",'
        '"rights":"GL LD MC EX"}',
        '{"base":2147483680,"kind":"quota","length":8,"limit":64,"name":"q","number":7,"owner":"app",'
        '"rights":"GL LD"}',
        '{"args":1,"base":2147483856,"kind":"export","length":16,"name":"put","number":13,"owner":"driver",'
        '"passes":"data","posture":"enabled","rights":"GL LD","stack":0}',
        '{"base":2147483888,"kind":"export","length":16,"name":"digit","number":15,"owner":"hex",'
        '"posture":"inherit","rights":"GL LG LM LD MC EX"}',
        '"firmware":"board","heap":{"base":2147485008,"length":2736},"libraries":["hex"],"quantum":20,'
        '"threads":[{"entry":8,"name":"t","priority":1},{"entry":8,"name":"u","priority":1}]}'],
    "shared": ['"edges":[[0,1]],'],
    "plain": ['"edges":[],'],
    "passing": ['"edges":[[0,1],[1,2]],'],
    "large": [
        '{"base":2147484064,"kind":"sealed","length":16,"name":"secret","number":7,"of":"secret","owner":"one",'
        '"rights":"GL SD LD","type":14}',
        '{"base":13,"kind":"key","length":1,"name":"key13","number":11,"owner":"one","rights":"GL US SE"}',
        '"edges":[[0,1]],'],
}

LINES = {}
for name, data in reports.reported():
    line = LINES[name] = reports.report(data)
    assert all(piece in line for piece in PIECES.get(name, [])), name
    assert name != "tiny" or line + "\n" == text_of("tiny", "report.json")
    case("report_" + name, ["runimage", "{}", "10"], data, lines(line, *modelled(data, 10)))

# ---- how each compartment and library reaches each compartment, of descriptions with these reports

REACHED = {
    "tiny": [("app", "app", "path app")],
    "board": [("app", "driver", "none"), ("driver", "app", "none"), ("hex", "app", "path hex app"),
              ("hex", "driver", "none"), ("app", "app", "path app"), ("driver", "driver", "path driver")],
    "open": [("app", "driver", "path app driver"), ("hex", "driver", "path hex app driver")],
    "shared": [("a", "b", "path a b"), ("c", "a", "none")],
    "plain": [("a", "b", "none")],
    "passing": [("c", "a", "path c b a")],
}
for name, firmware in (("tiny", sample("tiny")), ("board", board()), ("open", board(passes="capabilities")),
                       ("shared", sharing("RWC", "data")), ("plain", sharing("RW", "data")),
                       ("passing", sharing("RWC", "capabilities")), ("large", large())):
    data = image(firmware)
    # (the large image has its regions at other places)
    assert name == "large" or reports.report(data) == LINES[name], name
    ways = list(reports.ways(images.read(data)))
    assert set(REACHED.get(name, [])) <= set(ways), name
    for number, (owner, to, answer) in enumerate(ways):
        case(f"way_{name}_{number}", ["why", "{}", owner, to], json.dumps(firmware), answer + "\n")
