#!/usr/bin/env python3
"""What code in a compartment may ever use, whatever that code is: its own entries, and those of who reaches it.

    capfw audit FIRMWARE.json | authority.py [COMPARTMENT..]

It answers for each compartment that is named, or for all. Entries of the compartment itself come first, then those
of every other owner that reaches it, with the path and the reason of each step (docs/use/report.md, "Reach"). Left
out are code, globals, the switcher's slots, and exports but those that turn interrupts off.
"""
import sys

sys.dont_write_bytecode = True
import manners  # noqa: E402
from reports import report_read, table, text  # noqa: E402


def counts(entry):
    """Whether an entry is listed."""
    if entry["kind"] == "export":
        return entry["posture"] == "disabled"
    return entry["kind"] not in ("code", "globals") and entry.get("of") != "switch"


def reasons(report, path):
    return "; ".join(report.reason(first, second) for first, second in zip(path, path[1:]))


def entries_in(report, compartment):
    """The entries that code in a compartment may use, as rows, and the paths of the other owners that hold some."""
    rows, paths = [], {}
    for owner in [compartment] + [name for name in report.owners if name != compartment]:
        path = report.path(owner, compartment)
        entries = [entry for entry in report.entries if path and entry["owner"] == owner and counts(entry)]
        rows += [(entry["number"], text(entry), owner) for entry in entries]
        if entries and len(path) > 1:
            paths[owner] = path
    return rows, paths


def answer(report, compartment):
    """The lines of one compartment."""
    yield f"code in {compartment} may use"
    rows, paths = entries_in(report, compartment)
    lines = table([("entry", "what", "held by"), *rows]) if rows else ["nothing but its own code and globals"]
    yield from ("  " + line for line in lines)
    for owner, path in paths.items():
        yield f"  {owner} reaches it: {reasons(report, path)}"


def main(words):
    parser = manners.Words(__doc__)
    parser.add_argument("compartments", nargs="*")
    named, report = parser.parse_args(words).compartments, report_read()[0]
    for name in named or report.compartments:
        if name not in report.compartments:
            raise manners.Refusal(f"no compartment {name}: there are {', '.join(report.compartments)}")
        print("\n".join(answer(report, name)))


if __name__ == "__main__":
    manners.run(main)
