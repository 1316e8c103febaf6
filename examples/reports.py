"""What the scripts of this folder share: a report as `capfw audit` writes it, and what it says, by names."""
import json

from manners import Refusal, input_lines, lines_in

# What stands in a report, and in an entry of it by its kind beside what each entry has.
PARTS = {"firmware": str, "quantum": int, "heap": dict, "compartments": list, "libraries": list, "devices": list,
         "entries": list, "threads": list, "edges": list}
ENTRY = {"number": int, "kind": str, "owner": str, "base": int, "length": int, "rights": str}
OF_KIND = dict.fromkeys(("device", "shared", "call", "library", "service"), ["of", "name"])
OF_KIND |= {"sealed": ["of", "name", "type"], "quota": ["name", "limit"], "key": ["name"],
            "export": ["name", "posture"]}


def is_whole(row):
    """Whether a value has what a report has."""
    def has(value, members):
        return isinstance(value, dict) and all(isinstance(value.get(name), kind) for name, kind in members.items())

    def has_rows(name, members):
        return all(has(part, members) for part in row[name])

    if not (has(row, PARTS) and has(row["heap"], {"length": int}) and has_rows("entries", ENTRY)):
        return False
    count = len(row["compartments"])
    numbers = {entry["number"] for entry in row["entries"]}
    return (all(name in entry for entry in row["entries"] for name in OF_KIND.get(entry["kind"], []))
            and has_rows("devices", {"name": str, "kind": str, "base": int})
            and has_rows("threads", {"name": str, "entry": int, "priority": int})
            and all(thread["entry"] in numbers for thread in row["threads"])
            and all(isinstance(edge, list) and len(edge) == 2 and set(edge) <= set(range(count))
                    for edge in row["edges"]))


class Report:
    """A report by its line. Edges are pairs of names; entries and devices are the report's own rows."""

    def __init__(self, line):
        row = json.loads(line)
        if not is_whole(row):
            raise ValueError(line)
        self.line = line
        self.firmware, self.quantum, self.heap = row["firmware"], row["quantum"], row["heap"]
        self.compartments, self.libraries = row["compartments"], row["libraries"]
        self.devices, self.entries, self.threads = row["devices"], row["entries"], row["threads"]
        self.edges = [[self.compartments[n] for n in edge] for edge in row["edges"]]
        self.entry = {entry["number"]: entry for entry in self.entries}

    @property
    def owners(self):
        """The compartments, then the libraries."""
        return self.compartments + self.libraries

    def of_kind(self, *kinds, owner=None):
        """The entries of these kinds, of one owner or of all, in the order of their numbers."""
        return [entry for entry in self.entries if entry["kind"] in kinds and owner in (None, entry["owner"])]

    def export(self, name):
        """The entry of `owner.export`."""
        owner, export = name.split(".")
        return next(entry for entry in self.of_kind("export", owner=owner) if entry["name"] == export)

    def importers(self, library):
        """Who imports code of a library, compartments first."""
        rows = self.of_kind("library")
        return [owner for owner in self.owners
                if any(row["owner"] == owner and row["of"].split(".")[0] == library for row in rows)]

    def next_to(self, owner):
        """Where a step of reach leads from an owner: to who shares with it, or to a library's importers."""
        if owner in self.libraries:
            return self.importers(owner)
        joined = {name for edge in self.edges if owner in edge for name in edge}
        return [name for name in self.compartments if name in joined and name != owner]

    def path(self, owner, compartment):
        """The path by which an owner reaches a compartment, the one that `why` writes; None where it doesn't. It has
        the fewest members, and among these paths the first owners, by their numbers, from the left."""
        found, best = {owner: [owner]}, [[owner]]
        while best and compartment not in found:
            longer = []
            for path in best:
                for name in self.next_to(path[-1]):
                    if name not in found:
                        found[name] = path + [name]
                        longer.append(found[name])
            best = longer
        return found.get(compartment)

    def reached(self, owner):
        """The compartments that an owner reaches."""
        return [name for name in self.compartments if self.path(owner, name)]

    def component(self, compartment):
        """The compartments that share with one, directly or through others, itself among them."""
        return self.reached(compartment)

    def reason(self, first, second):
        """Why the second of two neighbours on a path follows the first."""
        if first in self.libraries:
            rows = [row for row in self.of_kind("library", owner=second) if row["of"].split(".")[0] == first]
            return f"{second} imports {rows[0]['of']}"
        for caller, callee in ((first, second), (second, first)):
            for row in self.of_kind("call", owner=caller):
                if row["of"].split(".")[0] == callee and self.export(row["of"])["passes"] == "capabilities":
                    return f"{caller} calls {row['of']}, which passes capabilities"
        ours, theirs = ([row["of"] for row in self.of_kind("shared", owner=owner) if "MC" in row["rights"].split()]
                        for owner in (first, second))
        return f"both hold {next(name for name in ours if name in theirs)} with capabilities"


def report_of(lines):
    """The report on the first of some lines, and those behind it; it refuses what is no report."""
    lines = iter(lines)
    first = next(lines, "").rstrip("\n")
    try:
        return Report(first), lines
    except (ValueError, TypeError, RecursionError):
        raise Refusal(f"no report: {first[:200]}" if first else "no report: nothing was read") from None


def report_read():
    """The report on standard input, and the lines behind it."""
    return report_of(input_lines("a report, which `capfw audit` writes,"))


def report_in(path):
    """The report on the first line of a file, and the lines behind it."""
    return report_of(lines_in(path))


def allowed(entry):
    """What the rights of an entry for a device, or for a shared object, let its holder do with it."""
    rights = entry["rights"].split()
    words = [word for right, word in (("LD", "read"), ("SD", "write"), ("MC", "capabilities")) if right in rights]
    return ", ".join(words)


def title(entry):
    """An entry by its owner and its own name."""
    return f"{entry['owner']}.{entry['name']}" if "name" in entry else f"{entry['owner']}'s {entry['kind']}"


def export_text(entry):
    """What an export of a compartment or of a library is."""
    words = ["takes plain data"] if entry.get("passes") == "data" else []
    words += ["interrupts off"] if entry["posture"] == "disabled" else []
    return ", ".join([f"export {entry['name']}"] + words)


def text(entry):
    """What an entry is for, in words."""
    kind = entry["kind"]
    if kind in ("device", "shared"):
        return f"{kind} {entry['of']}: {allowed(entry)}"
    if kind == "sealed":
        return f"sealed {entry['of']} of type {entry['type']}"
    if kind == "quota":
        return f"quota {entry['name']}: {entry['limit']} bytes"
    if kind == "key":
        return f"key of type {entry['base']}"
    if kind == "export":
        return export_text(entry)
    return f"{kind} {entry['of']}" if "of" in entry else f"{kind}, {entry['length']} bytes"


def widths(rows):
    """How wide the columns of rows of texts must be."""
    return [max(map(len, column)) for column in zip(*rows)]


def table(rows):
    """The lines of a table, each column as wide as it must be."""
    cells = [[str(cell) for cell in row] for row in rows]
    wide = widths(cells)
    return ["  ".join(cell.ljust(width) for cell, width in zip(row, wide)).rstrip() for row in cells]
