#!/usr/bin/env python3
"""Holds step.py and reports.py to the rows of a table: a trace tells what `run` writes, a path is what `why` writes.

    held.py CASES NAME=FILE..      CASES and NAME=FILE as tests/cases.py makes them of a table

Held is each case of a run, of a description or an image, that is due with a report; of it the lines that stand behind
`>` in the trace. And each case of `why` that is due with a path, or with `none`. It prints how many were held, or the
names of those that differ, with status 1.
"""
import contextlib
import io
import os
import re
import sys

sys.dont_write_bytecode = True
import paths  # noqa: E402, F401
import plain  # noqa: E402
import step  # noqa: E402
from manners import text_in  # noqa: E402

TOLD = re.compile(r" +> (.*?)(?:  \(.*\))?$")


def trace_lines(read, *words):
    """The lines that a trace tells of a run by these words."""
    options = step.options_of(words)
    firmware = plain.firmware_of(options.desc, read)
    inputs = plain.inputs_of(firmware, read(options.script)) if options.script else []
    with contextlib.redirect_stdout(io.StringIO()) as written:
        step.show(firmware, options, inputs)
    found = map(TOLD.fullmatch, written.getvalue().splitlines())
    return "".join(match.group(1) + "\n" for match in found if match)


def path(read, description, owner, compartment):
    """What `why` would write of an owner and a compartment."""
    names = plain.firmware_of(description, read).report.path(owner, compartment)
    return " ".join(["path", *names]) + "\n" if names else "none\n"


def cases(folder, files):
    """Of each case that can be held its name, what is due, and what a script says instead of the program."""
    paths = dict(file.split("=", 1) for file in files)
    for file in sorted(name for name in os.listdir(folder) if name.endswith(".args")):
        name = file.removesuffix(".args")
        command, *words = text_in(os.path.join(folder, file)).replace("{}", os.path.join(folder, name)).splitlines()
        with open(os.path.join(folder, name + ".stdout"), "rb") as stored:
            due = stored.read().decode(errors="replace")

        def read(source):
            return text_in(paths.get(source, source))

        if command in ("run", "runimage") and due.startswith("{"):
            yield name, due.partition("\n")[2], trace_lines(read, *words)
        if command == "why" and due.startswith(("path", "none")):
            yield name, due, path(read, *words)


def main(folder, *files):
    rows = list(cases(folder, files))
    differ = [name for name, due, found in rows if due != found]
    print(f"differ: {' '.join(differ)}" if differ else f"all rows held: {len(rows)}")
    return 1 if differ or not rows else 0


if __name__ == "__main__":
    sys.exit(main(*sys.argv[1:]))
