#!/usr/bin/env python3
"""Holds docs/use/description.schema.json against the rows of tests/, and against what explain.py knows of limits.

    schema_rows.py             rows, and alterations of one description at each member
    schema_rows.py PROGRAM     each alteration is handed to capfw too, whose line explain.py must have found

A row that capfw takes must be valid. One that it refuses must be invalid, but for those of BEYOND: what no schema can
say, each with the reason; these must be valid, so that the list is no longer than it has to be. Alterations take each
member of a description with one of every part away, put another value in its place, each number at its limits, each
list as long as may be and one longer, and one more member beside it. Status 0: nothing differs. Status 1: what differs
is printed.
"""
import copy
import json
import os
import subprocess
import sys
import tempfile

sys.dont_write_bytecode = True
import explain_rows  # noqa: E402
import schema  # noqa: E402
from places import descriptions, tables  # noqa: E402
from places.texts import Text  # noqa: E402

TABLES = ["rows", "descriptions", "links", "calls", "threads", "heap"]

# The rows whose fault no schema can say.
BEYOND = {
    "description_F2_4": "4096.0 is an integer in JSON Schema",
    "description_F6_7": "where RAM ends is the sum of two members",
    "description_F10_1": "whether RAM meets the native entries is in two members",
}
REASONS = {
    "F5": "a name is compared with all others of its space",
    "F7": "what a reference names is elsewhere in the description",
    "F10": "what an address meets is elsewhere in the description",
}
# Those of F5, F7 and F10 that the schema says all the same, by the form of what stands there.
SAID = {
    "description_F5_5": "an import named switch", "description_F5_7": "a quota named switch",
    "description_F5_10": "a key that stands twice", "description_F7_7": "a reference without a point",
    "description_F7_8": "a reference without a point", "description_F7_9": "a reference without a point",
    "description_F10_2": "a device at no multiple of 16", "description_F5_16": "a device beyond all addresses",
}
VALUES = [None, True, -1, 0, 1, 1.5, "", "x", "A", "Bad-Name", "a" * 33, "a.b", [], {}, ["x"], {"x": 1}, 2 ** 32,
          2 ** 64]


# ---- rows

def row_fault(row, judge):
    """What differs between a row and the schema, if anything does."""
    if row.words[0] in ("runimage", "upgrade", "demo") or row.words[1:2] != ["case"]:
        return None
    words = (row.refusal or "").split(" ")
    faulty = words[:3] == ["refused", "4", "description"]
    if faulty and words[3] == "F1":
        return None
    invalid = bool(judge.faults(json.loads(row.text())))
    beyond = row.name in BEYOND or faulty and words[3] in REASONS and row.name not in SAID
    if invalid != (faulty and not beyond):
        return f"{row.name}: {row.refusal}: {'invalid' if invalid else 'valid'}"
    return None


# ---- alterations

def paths(value, path=()):
    """The path of each member and element of a value."""
    for key, item in value.items() if isinstance(value, dict) else enumerate(value) if isinstance(value, list) else []:
        yield path + (key,)
        yield from paths(item, path + (key,))


def limits(key):
    """The numbers that limit a member of this name, one less, one more and 16 more."""
    numbers = {number for rows in tables.MEMBERS.values() for name, _, _, bounds in rows if name == key
               for number in bounds if isinstance(number, int)}
    for (least, most), ram, _ in tables.VERSIONS.values():
        numbers |= {"sweep": {least, most}, "size": {ram}}.get(key, set())
    numbers = numbers or {13, 15, 2 ** 64 - 1}
    return sorted({near for number in numbers for near in (number - 1, number, number + 1, number + 16) if near >= 0})


LONGEST = 300  # elements of a list that is made longer


def lengthened(items):
    """The list with as many elements as a list of parts may have, and one more, all of other names."""
    for count in sorted({bounds[0] + more for rows in tables.MEMBERS.values() for _, _, kind, bounds in rows
                         if kind == tables.LIST for more in (0, 1)} | {16, 17}):
        if len(items) < count <= LONGEST:
            yield items + [renamed(items[-1], number) for number in range(count - len(items))]


def renamed(item, number):
    if not isinstance(item, dict):
        return item
    return dict(item, **{key: f"n{number}" for key in ("name", "as") if key in item})


def alterations(whole):
    """The description with each member taken away, replaced, lengthened, and with one beside it. Of version 2 those
    members alone that differ from version to version."""
    for path in paths(whole):
        if whole["version"] == 2 and path[0] not in ("version", "sweep", "ram", "threads"):
            continue
        holder, key = explain_rows.value_at(whole, path[:-1]), path[-1]
        old = holder[key]
        values = [value for value in VALUES if not explain_rows.value_at(whole, path) == value]
        values += limits(key) if isinstance(old, int) else []
        values += list(lengthened(old)) if isinstance(old, list) and old else []
        values += [old + "f" * (2 * tables.MOST_BYTES)] if key == "bytes" else []
        values += ["f" * 255, "f" * 256] if key == "file" else []
        values += [old[:1] * (tables.MOST_BYTES // 4 + 1)] if key == "words" else []
        for value in values:
            yield altered(whole, path, value)
        without = copy.deepcopy(whole)
        del explain_rows.value_at(without, path[:-1])[key]
        yield without
        if isinstance(old, dict):
            yield altered(whole, path, dict(old, stray=1))
            for form in tables.FORMS + ["rights", "words", "file", "posture"]:
                yield altered(whole, path, dict(old, **{form: "R"}))
    yield dict(whole, stray=1)


def stands_twice(whole):
    """The description with a key that stands twice: of all that F5 is about, the schema says this."""
    return altered(whole, ("compartments", 0, "keys"), [13, 13])


def altered(whole, path, value):
    other = copy.deepcopy(whole)
    explain_rows.value_at(other, path[:-1])[path[-1]] = value
    return other


def bases():
    """The description with a part of each kind in both versions, and with every member that has a default."""
    whole = json.loads(explain_rows.whole())
    whole["compartments"][0]["globals"] = 16
    whole["compartments"][0]["exports"][0].update(posture="enabled", args=1, stack=0, passes="data")
    whole["libraries"][0]["exports"][0]["posture"] = "inherit"
    whole["compartments"].append({"name": "other", "code": {"file": "nohex.s"}, "exports": [{"name": "e", "at": "e"}]})
    whole["quantum"] = 100
    yield dict(whole, version=1, sweep=64)
    yield dict(whole, version=2, sweep=64)


def sum_of_ram(value):
    """Whether RAM's end alone is at fault: what no schema can say."""
    ram = value.get("ram")
    return ram["base"] + ram["size"] > tables.RAM_END


def alteration_fault(value, judge):
    """What differs between the schema and what explain.py finds, if anything does."""
    told = descriptions.first(Text("case", json.dumps(value).encode()))
    invalid = bool(judge.faults(value))
    number = told[0] if told else None
    if number in REASONS or number == "F6" and told[1] == ".ram" and not invalid and sum_of_ram(value):
        return None
    return None if invalid == (number is not None) else f"{told and told[:2]}, {'in' * invalid}valid"


def program_fault(value, program):
    """What differs between capfw's line and what explain.py finds. In a folder without sources capfw stops at the first
    of them where the description has no fault."""
    with open("case", "w", encoding="utf-8") as file:
        json.dump(value, file)
    line = subprocess.run([program, "audit", "case"], capture_output=True).stdout.decode().split("\n")[0]
    told = descriptions.first(Text.read("case"))
    words = line.split(" ")
    if words[:3] == ["refused", "4", "description"]:
        due = words[3], descriptions.place_path(words[4], int(words[5]), int(words[6]))
    else:
        due = None if words[:3] == ["refused", "2", "read"] else "a line of another kind"
    return None if due == (told and told[:2]) else f"{line[:80]}, and explain.py finds {told and told[:2]}"


def all_alterations():
    """The alterations of each description, each once."""
    return {json.dumps(value): value for base in bases() for value in alterations(base)}


def main():
    program = os.path.realpath(sys.argv[1]) if sys.argv[1:] else None
    judge = schema.Judge(schema.whole())
    explain_rows.TABLES[:] = TABLES
    with tempfile.TemporaryDirectory() as folder:
        all_rows = explain_rows.rows(folder)
        os.chdir(folder)
        faults = [told for told in (row_fault(row, judge) for row in all_rows) if told]
        os.chdir(explain_rows.HERE)
    for base in bases():
        assert not judge.faults(base) and not descriptions.first(Text("case", json.dumps(base).encode()))
        if not judge.faults(stands_twice(base)):
            faults.append("a key that stands twice is valid")
    altered_ones = all_alterations()
    with tempfile.TemporaryDirectory() as folder:
        os.chdir(folder)
        for text, value in altered_ones.items():
            told = alteration_fault(value, judge) or program and program_fault(value, program)
            faults += [f"{told}: {text[:3000]}"] if told else []
        os.chdir(explain_rows.HERE)
    print("\n".join(faults), end="\n" * bool(faults))
    print(f"{len(faults)} of {len(all_rows)} rows and {len(altered_ones)} alterations differ")
    return 1 if faults else 0


if __name__ == "__main__":
    sys.exit(main())
