"""What code in a compartment may ever use by a report, so that two reports can be compared.

A *power* is something that entries let code do, by names: so it is the same power in the report of another build,
where numbers and places are others. What code in a compartment may use are the powers of every owner that reaches it.
"""

OTHERS, THREAD = "use code and globals of ", "run thread "


def powers_of(report, owner):
    """The powers that an owner's entries hold, each with how far it goes: bytes for objects and quotas, else 1."""
    out = {}
    devices = devices_of(report)
    for entry in report.of_kind("device", "shared", "sealed", "key", "call", "service", "library", "quota", "export",
                                owner=owner):
        for power, extent in powers_of_entry(entry, devices):
            out[power] = out.get(power, 0) + extent if power == "allocate" else max(out.get(power, 0), extent)
    return out


def givers(report, owner, power):
    """The numbers of an owner's entries that give a power."""
    devices = devices_of(report)
    entries = report.of_kind("device", "shared", "sealed", "key", "call", "service", "library", "quota", "export",
                             owner=owner)
    return [entry["number"] for entry in entries if power in dict(powers_of_entry(entry, devices))]


def devices_of(report):
    """Each device in words, by its name."""
    return {row["name"]: f"{row['kind']} {row['name']} at {row['base']:08x}" for row in report.devices}


def threads_of(report, compartment):
    """That threads begin in a compartment: a power that it shares with nobody."""
    gates = [(thread["name"], report.entry[thread["entry"]]) for thread in report.threads]
    return {f"{THREAD}{name} from {compartment}.{gate['name']}": (1, compartment)
            for name, gate in gates if gate["owner"] == compartment}


def powers_of_entry(entry, devices):
    """The powers of one entry."""
    kind, rights = entry["kind"], entry["rights"].split()
    if kind in ("device", "shared"):
        what, extent = (devices[entry["of"]], 1) if kind == "device" else (f"shared {entry['of']}", entry["length"])
        words = (("LD", "read"), ("SD", "write"), ("MC", "pass capabilities by"))
        return [(f"{word} {what}", extent) for right, word in words if right in rights]
    if kind == "sealed":
        return [(f"hand on sealed {entry['of']} of type {entry['type']}", entry["length"])]
    if kind == "key":
        return [(f"seal and unseal type {entry['base']}", 1)]
    if kind == "quota":
        return [("allocate", entry["limit"])]
    if kind == "export":
        off = entry["posture"] == "disabled"
        return [(f"turn interrupts off by {entry['owner']}.{entry['name']}", 1)] if off else []
    if entry["of"] == "switch":
        return []
    return [({"call": "call", "service": "use service", "library": "run library code"}[kind] + " " + entry["of"], 1)]


def powers_in(report, compartment):
    """What code in a compartment may ever use: each power, how far it goes, and the first owner that holds it."""
    out = {OTHERS + name: (1, compartment)
           for name in report.component(compartment) if name != compartment}
    for owner in [compartment] + [name for name in report.owners if name != compartment]:
        if report.path(owner, compartment):
            for power, extent in powers_of(report, owner).items():
                before = out.get(power, (0, owner))
                far = before[0] + extent if power == "allocate" else max(before[0], extent)
                out[power] = far, before[1]
    return out | threads_of(report, compartment)
