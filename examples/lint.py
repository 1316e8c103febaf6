#!/usr/bin/env python3
"""Warns of what no refusal says: lines that assemble, and members that are lawful, and are seldom meant.

    lint.py DESC        FILE:LINE:COLUMN: WHY, with the line

Of sources: `mv`, `csw` or `sw` of a register that holds a capability, which loses it; a `clc` or `csc` by a label of
the data that isn't at a multiple of 8; an argument that the called export doesn't take, and an export's code that reads
one which it doesn't take. Of descriptions: a call that passes capabilities since its export doesn't say `passes`; a
member that stands twice; a source outside the description's folder, or that is no plain file.
Registers are followed from line to line up to the next label, no further. Nothing is proved, and a warning may be
wrong. Status 0: nothing is found. Status 1: something is. What capfw refuses explain.py explains.
"""
import os
import stat
import sys

sys.dont_write_bytecode = True
import manners  # noqa: E402
from places.assembly import Source  # noqa: E402
from places.descriptions import Description  # noqa: E402
from places.members import NoJson  # noqa: E402
from places.registers import Reader  # noqa: E402
from places.texts import Found, Text  # noqa: E402
from places.warnings import twice  # noqa: E402

ARGUMENTS = 6


def imports_of(owner):
    """What each import of an owner leads to: an export, or a service."""
    return {row.text("as"): row.text("call") or row.text("service") or row.text("library")
            for row in owner.items("imports")}


def arguments_of(description):
    """How many arguments each export of a compartment takes; where that is no number, as many as any."""
    found = {}
    for owner in description.top.items("compartments"):
        for export in owner.items("exports"):
            count = export.get("args").number() if export.get("args") else ARGUMENTS
            found[f"{owner.text('name')}.{export.text('name')}"] = ARGUMENTS if count is None else count
    return found


def handed(description):
    """The imports by which capabilities pass since nobody said otherwise."""
    exports = {f"{owner.text('name')}.{row.text('name')}": row for owner in description.top.items("compartments")
               for row in owner.items("exports")}
    for owner in description.top.items("compartments"):
        for row in owner.items("imports"):
            export = exports.get(row.text("call"))
            if export is not None and export.get("passes") is None:
                line, column = description.text.place(export.start)
                both = f"{owner.text('name')} and {row.text('call').split('.')[0]}"
                hint = f'the export, at {description.text.file}:{line}:{column}, doesn\'t say: "passes": "data", or ' \
                       '"capabilities" if it is meant'
                yield description.found(row, "", f"warning: this call passes capabilities, and joins {both}", hint)


def sources(description, folder):
    """Each owner with its source; a warning where that is outside of the description's folder, or no plain file."""
    arguments = arguments_of(description)
    for key in ("compartments", "libraries"):
        for owner in description.top.items(key):
            file = owner.get("code") and owner.get("code").text("file")
            if not file:
                continue
            node = owner.get("code").get("file")
            if os.path.commonpath([os.path.realpath(file), folder]) != folder:
                yield description.found(node, "", "warning: this source isn't in the description's folder")
            if os.path.exists(file) and not stat.S_ISREG(os.stat(file).st_mode):
                yield description.found(node, "", "warning: this is no plain file, and isn't read here")
                continue
            exports = [(row.text("at"), arguments[f"{owner.text('name')}.{row.text('name')}"])
                       for row in owner.items("exports") if key == "compartments" and row.text("name") != "handler"]
            text = Text(file, manners.bytes_in(file))
            yield from Reader(Source(text), imports_of(owner), arguments).read(exports)


def main(words):
    parser = manners.Words(__doc__)
    parser.add_argument("desc")
    path = parser.parse_args(words).desc
    text = Text(path, manners.bytes_in(path))
    try:
        description = Description(text)
    except NoJson as fault:
        found = [Found(text, fault.at, fault.at + 1, "", fault.why)]
    else:
        folder = os.path.realpath(os.path.dirname(path) or ".")
        found = [*twice(text, description.top), *handed(description), *sources(description, folder)]
    for it in found:
        print("\n".join(it.lines()))
    return 1 if found else 0


if __name__ == "__main__":
    manners.run(main)
