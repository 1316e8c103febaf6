#!/usr/bin/env python3
"""Holds describe.py to the linker and the reports of tests/model, and to a program.

    describe_rows.py [PROGRAM]

Each image that is linked (of the samples, of the tables' firmwares, of a demo) must be described so that the linker
makes that image again, byte for byte; so must the images of the table images.py that are accepted, or else its other
image must be told as another one. With a program, describe.py itself is called: its verdict must be the linker's, and
the report that `audit` writes of a description that it calls the same must be the image's report.

Status 0: nothing differs. Status 1: what differs is printed.
"""
import contextlib
import io
import json
import os
import subprocess
import sys
import tempfile

sys.dont_write_bytecode = True
import paths  # noqa: E402, F401
import describe  # noqa: E402
import described  # noqa: E402
import disassemble_rows  # noqa: E402
import explain_rows  # noqa: E402
from manners import Refusal  # noqa: E402
from model import images, reports  # noqa: E402
from model.linker import link  # noqa: E402
from places.images import Image  # noqa: E402

SAME, OTHER = 0, 1
EACH = 8  # one image in so many of those that are altered goes to the program


def linked():
    """Images that are linked, by name."""
    for name, firmware, sources in [*disassemble_rows.in_folders(), *disassemble_rows.in_tables(),
                                    *disassemble_rows.generated()]:
        yield name, link(firmware, sources), SAME


def accepted():
    """The images of images.py that are accepted, whether or not a description links to them."""
    explain_rows.TABLES[:] = ["images"]
    with tempfile.TemporaryDirectory() as folder:
        for row in explain_rows.rows(folder):
            if not row.refusal and row.words[0] == "upgrade" and images.answer(row.data) == "ok":
                yield row.name, row.data, None


def verdict(data):
    """Whether the description of an image links to it again, by the linker of tests/model."""
    image = Image(data)
    try:
        description = json.loads(described.laid_out(described.description(image)))
        lines = {file: text.split("\n") for file, text in described.sources(image).items()}
        return SAME if link(description, lines) == data else OTHER
    except (AssertionError, KeyError, Refusal, ValueError):
        return OTHER


def told(program, data):
    """The verdict of describe.py, and what differs between the reports."""
    with open("image", "wb") as file:
        file.write(data)
    with contextlib.redirect_stdout(io.StringIO()) as out:
        status = describe.main(["image", "of", "--capfw", program])
    name = out.getvalue().split(" ")[0]
    ran = subprocess.run([program, "audit", os.path.basename(name)], cwd="of", capture_output=True)
    is_right = ran.stdout.decode().rstrip("\n") == reports.report(data).rstrip("\n")
    return status, status == OTHER or is_right


def faults(program, name, data, due):
    found = verdict(data)
    if due is not None and found != due:
        yield f"{name}: described as {found}, due is {due}"
    if program:
        with tempfile.TemporaryDirectory() as folder:
            os.chdir(folder)
            status, is_right = told(program, data)
            os.chdir(paths.HERE)
        if status != found:
            yield f"{name}: describe.py answers {status}, the linker {found}"
        if not is_right:
            yield f"{name}: another report"


def main(words):
    program = os.path.realpath(words[0]) if words and words[0] else None
    rows = [*linked(), *accepted()]
    found = []
    for number, (name, data, due) in enumerate(rows):
        found += faults(program if due is not None or number % EACH == 0 else None, name, data, due)
    others = sum(verdict(data) == OTHER for _, data, due in rows if due is None)
    print("\n".join(found), end="\n" * bool(found))
    print(f"{len(found)} of {len(rows)} images differ; {others} are lawful and no description's")
    return 1 if found or not others else 0


if __name__ == "__main__":
    sys.exit(main(sys.argv[1:]))
