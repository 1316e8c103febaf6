#!/usr/bin/env python3
"""Writes the policy that a report keeps: a start for a review, from which a reviewer strikes or widens lines.

    capfw audit FIRMWARE.json | policy.py > FIRMWARE.policy

`capfw check` of the same description by this policy answers `allow`. There is a rule for each device, shared object
and service that an entry is for, with its holders; for each export of a compartment, with its callers, or its own
compartment where it has none, and whether it takes plain data; for who turns interrupts off; for the quotas of each
compartment and all together; and for each two owners that are apart.

A later build may hold more all the same without breaking it, since a policy has no rule that says *nobody* (of a
device, an object or a service that nobody holds, of interrupts that nobody turns off), none for rights (who reads a
device may come to write to it), and none for sealed objects, keys and libraries' exports. changes.py finds these.
"""
import sys

sys.dont_write_bytecode = True
import manners  # noqa: E402
from reports import report_read  # noqa: E402

# the rule `quota total` is the one over all quotas, also where an owner has that name
ALL = "total"


def only(report, kind):
    """A rule for each thing that entries of a kind are for."""
    entries = [entry for entry in report.of_kind(kind) if entry["of"] != "switch"]
    for name in dict.fromkeys(entry["of"] for entry in entries):
        holders = [owner for owner in report.owners
                   if any(entry["owner"] == owner and entry["of"] == name for entry in entries)]
        yield f"{kind} {name} only {' '.join(holders)}"


def exports(report):
    """The rules of who calls which export, and which take plain data."""
    for entry in report.of_kind("export"):
        if entry["owner"] in report.compartments:
            name = f"{entry['owner']}.{entry['name']}"
            callers = [owner for owner in report.compartments
                       if any(row["of"] == name for row in report.of_kind("call", owner=owner))]
            yield f"call {name} only {' '.join(callers or [entry['owner']])}"
            if entry["passes"] == "data":
                yield f"data {name}"


def quotas(report):
    limits = [(entry["owner"], entry["limit"]) for entry in report.of_kind("quota")]
    for compartment in report.compartments:
        if compartment != ALL:
            yield f"quota {compartment} {sum(limit for owner, limit in limits if owner == compartment)}"
    yield f"quota {ALL} {sum(limit for _, limit in limits)}"


def apart(report):
    """A rule for each compartment and each other owner, later in the report, that doesn't reach it."""
    for n, compartment in enumerate(report.compartments):
        for owner in report.owners[n + 1:]:
            if not report.path(owner, compartment):
                yield f"apart {owner} {compartment}"


def rules(report):
    for kind in ("device", "shared", "service"):
        yield from only(report, kind)
    yield from exports(report)
    off = [entry["owner"] for entry in report.of_kind("export") if entry["posture"] == "disabled"]
    if off:
        yield f"disabled only {' '.join(dict.fromkeys(off))}"
    yield from quotas(report)
    yield from apart(report)


def main(words):
    manners.Words(__doc__).parse_args(words)
    for rule in rules(report_read()[0]):
        print(rule)


if __name__ == "__main__":
    manners.run(main)
