#!/usr/bin/env python3
"""A graph of a report: who shares with whom, who holds which device, where threads begin.

    capfw audit FIRMWARE.json | sharing.py | dot -Tsvg > picture.svg
    capfw audit FIRMWARE.json | sharing.py --mermaid

It is written for Graphviz, or for Mermaid, which the pages of a review draw where it stands in a block of that name.
Boxes are compartments, folders (in Mermaid double boxes) libraries, ovals devices. A thick line without an arrow is an
edge of the sharing graph: either side may come to use what the other owns. An arrow is an entry of the report, with its
number: to a device with what it allows, to an export that is called or to a library's with its name. A dashed arrow is
where a thread begins.
"""
import collections
import json
import sys

sys.dont_write_bytecode = True
import manners  # noqa: E402
from reports import allowed, report_read  # noqa: E402

# A point and its kind, and its lines of text; a line from one point to another, its kind, and its text.
Point = collections.namedtuple("Point", "name kind text")
Line = collections.namedtuple("Line", "start end kind text", defaults=[""])
SHARES, ENTRY, BEGINS = "shares", "entry", "begins"


def points(report):
    """The points of the graph: owners, devices, and threads."""
    yield from (Point("owner " + name, "compartment", [name]) for name in report.compartments)
    yield from (Point("owner " + name, "library", [name]) for name in report.libraries)
    for row in report.devices:
        yield Point("device " + row["name"], "device", [row["name"], f"{row['kind']} at {row['base']:#x}"])
    yield from (Point("thread " + row["name"], "thread", [row["name"]]) for row in report.threads)


def lines(report):
    """The lines of the graph: edges, entries, and where threads begin."""
    yield from (Line("owner " + first, "owner " + second, SHARES) for first, second in report.edges)
    for entry in report.of_kind("device", "call", "library"):
        owner, _, export = entry["of"].partition(".")
        is_device = entry["kind"] == "device"
        what = allowed(entry).replace(", ", " and ") if is_device else export
        yield Line("owner " + entry["owner"], f"{'device' if is_device else 'owner'} {owner}", ENTRY,
                   f"{entry['number']}: {what}")
    for thread in report.threads:
        gate = report.entry[thread["entry"]]
        yield Line("thread " + thread["name"], "owner " + gate["owner"], BEGINS, gate["name"])


# ---- Graphviz

SHAPES = {"compartment": "shape=box, ", "library": "shape=folder, ", "device": "", "thread": "shape=plaintext, "}


def quoted(text):
    return json.dumps(text)


def graphviz(report):
    yield f"graph {quoted(report.firmware)} {{"
    yield '  rankdir=LR; node [fontname="Helvetica"]; edge [fontname="Helvetica", fontsize=10];'
    for point in points(report):
        yield f"  {quoted(point.name)} [{SHAPES[point.kind]}label={quoted(chr(10).join(point.text))}];"
    for line in lines(report):
        style = {SHARES: "penwidth=3", ENTRY: f"dir=forward, label={quoted(line.text)}",
                 BEGINS: f"dir=forward, style=dashed, label={quoted(line.text)}"}[line.kind]
        yield f"  {quoted(line.start)} -- {quoted(line.end)} [{style}];"
    yield "}"


# ---- Mermaid

MARKS = {"compartment": "[{}]", "library": "[[{}]]", "device": "([{}])", "thread": "{{{{{}}}}}"}


def mermaid(report, more=lambda point: []):
    """The graph as Mermaid's flowchart, with more lines of text in a point. Points go by numbers, since a name may be
    a word of its language."""
    yield "flowchart LR"
    numbers = {}
    for number, point in enumerate(points(report)):
        numbers[point.name] = f"n{number}"
        text = '"' + "<br>".join([*point.text, *more(point)]) + '"'
        yield f"    n{number}{MARKS[point.kind].format(text)}"
    for line in lines(report):
        start, end = numbers[line.start], numbers[line.end]
        arrow = {SHARES: "===", ENTRY: f'-- "{line.text}" -->', BEGINS: f'-. "{line.text}" .->'}[line.kind]
        yield f"    {start} {arrow} {end}"


def main(words):
    parser = manners.Words(__doc__)
    parser.add_argument("--mermaid", action="store_true")
    options = parser.parse_args(words)
    print("\n".join((mermaid if options.mermaid else graphviz)(report_read()[0])))


if __name__ == "__main__":
    manners.run(main)
