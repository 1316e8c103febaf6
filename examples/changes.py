#!/usr/bin/env python3
"""What changed from one report to another, by names, and whether authority grew: for a review, or for a build.

    changes.py OLD NEW [--code OLD_DIGESTS NEW_DIGESTS] [--description DESC]

OLD and NEW are files with a report line, and the digests what digests.py wrote of the two images. It writes

    + and - for an entry, a device, a thread, an owner or an edge of the sharing graph that came or went,
    ~       for one that changed, with what it was and is; its number and its base in RAM don't count,
    code    for each owner whose text, entries, initial data or sealed bytes are others, by the digests,
    grew    for each power that code in a compartment may use by NEW and could not, or not so far, by OLD; with DESC,
            which is the new build's, also where in it the entry stands that gives the power.

Status 0: authority didn't grow. Status 1: it grew. Status 2: no two reports, or no digests. Code that changed is no
growth: the report holds whatever the code is.

Authority *grew* where there is a `grew` line. What code in a compartment may use are the powers of all entries whose
owner reaches it (docs/use/report.md, "Reach"): to use code and globals of another compartment, to read or write a
device at its address, to read, write or pass capabilities by a shared object, to hand on a sealed object, to seal and
unseal a type, to call an export, to use a service, to run a library's code, to turn interrupts off by an export; to
allocate, as far as the limits of all these quotas together; and that a thread begins in it. Objects go as far as their
length. What has another name, or of a device another kind or address, is another thing: a renamed compartment grows by
all that it may use. No powers are the sizes of code, globals, stacks and heap, the quantum, priorities, how many
arguments or how much stack an export takes, and the names of slots.
"""
import sys

sys.dont_write_bytecode = True
import manners  # noqa: E402
from places import shown  # noqa: E402
from places.descriptions import Description  # noqa: E402
from places.growth import spots  # noqa: E402
from powers import powers_in  # noqa: E402
from reports import allowed, report_in  # noqa: E402

# of each kind of entry the members that are compared; `may` are its rights in words
MEMBERS = {"code": ["length"], "globals": ["length"], "stack": ["length"], "service": [], "call": [], "library": [],
           "device": ["may"], "shared": ["may", "length"], "sealed": ["type", "length"], "quota": ["limit"],
           "key": ["base"], "export": ["passes", "posture", "args", "stack"]}
SHORT = 12  # digits of a sum that are written
NONE = "none"  # a member that only one of the reports has, as of an export of a library that became a compartment


def rows(report):
    """What can change of a report: each part by its name, with its members."""
    out = {("heap",): {"length": report.heap["length"]}, ("quantum",): {"steps": report.quantum}}
    for name in report.compartments:
        out["compartment", name] = {}
    for name in report.libraries:
        out["library", name] = {}
    for first, second in report.edges:
        out["sharing", first, second] = {}
    for device in report.devices:
        out["device", device["name"]] = {"kind": device["kind"], "at": f"{device['base']:08x}"}
    for thread in report.threads:
        gate = report.entry[thread["entry"]]
        out["thread", thread["name"]] = {"from": f"{gate['owner']}.{gate['name']}", "priority": thread["priority"]}
    for entry in report.entries:
        key = entry["owner"], entry["kind"], entry.get("name", ""), entry.get("of", "")
        row = dict(entry, may=allowed(entry))
        out[key] = {member: row[member] for member in MEMBERS[entry["kind"]] if member in row}
    return out


def changed(old, new):
    """A line for each part that came, went or changed."""
    for key in dict.fromkeys([*old, *new]):
        name, before, after = " ".join(filter(None, key)), old.get(key), new.get(key)
        if before is None:
            yield " ".join(["+", name, *(f"{member}={value}" for member, value in after.items())])
        elif after is None:
            yield f"- {name}"
        elif before != after:
            members = [(member, before.get(member, NONE), after.get(member, NONE)) for member in {**before, **after}]
            yield f"~ {name} " + ", ".join(f"{member}: {was} -> {now}" for member, was, now in members if was != now)


def grown(old, new):
    """Each power that a compartment may use by the new report, and not so far by the old: its line, the compartment,
    who holds it, and the power."""
    for compartment in new.compartments:
        before = powers_in(old, compartment) if compartment in old.compartments else {}
        for power, (extent, holder) in powers_in(new, compartment).items():
            past = before.get(power, (0, ""))[0]
            if extent > past:
                far = f", {extent} bytes" + (f" and not {past}" if past else "") if extent > 1 else ""
                through = "" if holder == compartment else f", which {holder} holds"
                yield f"grew: {compartment} may {power}{far}{through}", compartment, holder, power


# ---- code, by its digests

def digests_in(file):
    """The digests of a file: of each name and kind its bytes and its sum."""
    out = {}
    for line in manners.text_in(file).splitlines():
        words = line.split(" ")
        if len(words) != 4 or words[0] not in ("text", "entries", "data", "sealed"):
            raise manners.Refusal(f"{file}: not what digests.py writes: {line[:80]}")
        out.setdefault(words[1], {})[words[0]] = words[2:]
    return out


def recoded(old, new):
    """A line for each name that both builds have and whose code, data or sealed bytes are others."""
    for name in (name for name in new if name in old):
        kinds = [kind for kind in {**old[name], **new[name]} if old[name].get(kind) != new[name].get(kind)]
        words = []
        for kind in kinds:
            (was, before), (now, after) = old[name].get(kind, ("0", "")), new[name].get(kind, ("0", ""))
            sizes = f", {was} -> {now} {'exports' if kind == 'entries' else 'bytes'}" if was != now else ""
            words.append(f"{kind} {before[:SHORT] or NONE} -> {after[:SHORT] or NONE}{sizes}")
        if kinds:
            yield f"code: {name} {'; '.join(words)}"


def main(words):
    parser = manners.Words(__doc__)
    parser.add_argument("reports", nargs=2)
    parser.add_argument("--code", nargs=2, default=[])
    parser.add_argument("--description")
    options = parser.parse_args(words)
    old, new = (report_in(file)[0] for file in options.reports)
    codes = [digests_in(file) for file in options.code]
    d = Description.read(options.description) if options.description else None
    found = list(grown(old, new))
    for line in [*changed(rows(old), rows(new)), *(recoded(*codes) if codes else [])]:
        print(line)
    for line, compartment, holder, power in found:
        print(line)
        for spot in spots(d, new, compartment, holder, power) if d else []:
            print(f"    {spot.head()}: {spot.member}: {spot.says}")
            if shown.is_annotated():
                spot.says, spot.hints = f"authority: {line}", []
                print(shown.annotation(spot))
    return 1 if found else 0


if __name__ == "__main__":
    manners.run(main)
