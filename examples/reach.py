#!/usr/bin/env python3
"""A report with its reach closed, as JSON for a language of rules such as Rego, or for jq.

    capfw audit FIRMWARE.json | reach.py > input.json

The output is the report with three members more. `reach` has of each owner the compartments that it reaches, itself
among them where it is one. `may` has of each compartment the numbers of the entries that may come to be used in it:
those whose owner reaches it. `callers` has of each export of a compartment who holds an import of it. The report is
`capfw`'s, and proved; what is added is worked out here. examples/reach.rego is a file of rules for it.
"""
import json
import sys

sys.dont_write_bytecode = True
import manners  # noqa: E402
from reports import report_read  # noqa: E402


def closed(report):
    """The report's members, and what is added."""
    reach = {owner: report.reached(owner) for owner in report.owners}
    may = {name: [entry["number"] for entry in report.entries if name in reach.get(entry["owner"], [])]
           for name in report.compartments}
    exports = [f"{entry['owner']}.{entry['name']}" for entry in report.of_kind("export")
               if entry["owner"] in report.compartments]
    callers = {name: [owner for owner in report.compartments
                      if any(row["of"] == name for row in report.of_kind("call", owner=owner))] for name in exports}
    return {**json.loads(report.line), "reach": reach, "may": may, "callers": callers}


def main(words):
    manners.Words(__doc__).parse_args(words)
    print(json.dumps(closed(report_read()[0])))


if __name__ == "__main__":
    manners.run(main)
