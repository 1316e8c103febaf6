#!/usr/bin/env python3
"""A table of a report: who may touch which device, and through which entry.

    capfw audit FIRMWARE.json | devices.py

An entry's owner isn't alone: a compartment that the owner reaches in the sharing graph may come to use
the entry too. The column `reached` names them; it is the owner itself where nothing is shared. Owners
of device entries are compartments: a library imports libraries alone.
"""
import sys

sys.dont_write_bytecode = True
import manners  # noqa: E402
from reports import report_read, table  # noqa: E402


def rows(report):
    yield ("device", "read", "write", "entry", "owner", "reached")
    for device in report.devices:
        for entry in report.of_kind("device"):
            if entry["of"] == device["name"]:
                rights = entry["rights"].split()
                marks = ["yes" if right in rights else "no" for right in ("LD", "SD")]
                users = ", ".join(report.reached(entry["owner"]))
                yield (device["name"], *marks, entry["number"], entry["owner"], users)


def main(words):
    manners.Words(__doc__).parse_args(words)
    print("\n".join(table(rows(report_read()[0]))))


if __name__ == "__main__":
    manners.run(main)
