#!/usr/bin/env python3
"""Holds explain.py against the tables of tests/: each refusal of a row is explained, at its place.

    explain_rows.py

The place is found without explain.py. Of a description it is what the row changed in the text that it alters, compared
as values, and where Python's own parser finds that; of each it is tried as it stands and spread over lines. Of sources,
scripts and policies it is the mark in marked.py; of an image the byte that the row tells, and the field by hand. What
a row accepts has no fault: no description, no source, no script and no policy. The numbers of entries are those of the
rows' reports, and the paths of parts those of docs/use/errors.md. Status 0: nothing differs. Status 1: what differs is
printed.
"""
import ast
import json
import os
import re
import subprocess
import sys
import tempfile

sys.dont_write_bytecode = True
from paths import ERRORS, HERE, SAMPLES, TESTS  # noqa: E402
import marked  # noqa: E402
from places import assembly, calls, descriptions, linking, refusals, rules  # noqa: E402
from places.texts import Text  # noqa: E402

TABLES = "rows descriptions sources links policies scripts images calls threads heap freed reports faults".split()
LISTS = {"device": "devices", "shared": "shared", "sealed": "sealed", "compartment": "compartments",
         "library": "libraries", "thread": "threads"}
INNER = {"import": ("compartments", "imports"), "quota": ("compartments", "quotas"), "key": ("compartments", "keys"),
         "export": ("compartments", "exports"), "limport": ("libraries", "imports"),
         "lexport": ("libraries", "exports")}
FORMS = ["words", "file", "device", "shared", "sealed", "call", "service", "library"]
NAMES = ["firmware", "name", "as"]


def whole():
    """The description with one of every part, which rows alter."""
    with open(os.path.join(TESTS, "firmwares.py"), encoding="utf-8") as file:
        module = ast.parse(file.read())
    text = next(node.value for node in module.body
                if isinstance(node, ast.Assign) and getattr(node.targets[0], "id", None) == "WHOLE")
    return text.func.value.value.replace("\n", "")


# ---- what a row changed in a description

def changes(old, new, path=()):
    """Each path at which two values differ, and whether something was added, removed or changed there."""
    if isinstance(old, dict) and isinstance(new, dict):
        for key in new:
            yield from changes(old[key], new[key], path + (key,)) if key in old else [(path + (key,), "added")]
        yield from [(path, "removed") for key in old if key not in new]
    elif isinstance(old, list) and isinstance(new, list):
        for index, item in enumerate(new):
            at = path + (index,)
            yield from changes(old[index], item, at) if index < len(old) else [(at, "added")]
        yield from [(path, "removed")] * (len(new) < len(old))
    elif type(old) is not type(new) or old != new:
        yield path, "changed"


def part(words, index, item):
    """The path of a place."""
    if words in ("firmware", "ram"):
        return () if words == "firmware" else ("ram",)
    if words in LISTS:
        return LISTS[words], index
    return INNER[words][0], index, INNER[words][1], item


def value_at(value, path):
    for step in path:
        value = value[step]
    return value


def inside(path, place):
    return path[:len(place)] == place


def candidates(fault, new, place, changed):
    """What of a row's changes a fault can be about; whether it is the name of the member."""
    out = []
    for path, how in changed:
        item = value_at(new, path)
        if not inside(path, place):
            continue
        if fault == "F3":
            out += [(path, True)] if how == "added" else []
        elif fault == "F2" and how == "added" and path[-1] in FORMS:
            out.append((path[:-1], False))
        elif fault in ("F4", "F5") and isinstance(item, dict):
            out += [(path + (key,), False) for key in NAMES if key in item]
        elif fault == "F4":
            out += [(path, False)] if path[-1] in NAMES else []
        elif fault == "F10" and isinstance(item, dict):
            out.append((path + ("base",), False))
        elif how != "removed" or fault == "F2":
            out.append((path, False))
    return out


def expected_member(name, fault, place, old, new):
    """The path at which a row's fault is, and whether it is the member's name that is meant."""
    if name in marked.MEMBERS:
        text = marked.MEMBERS[name]
        return tuple(int(step) if step.isdigit() else step for step in re.findall(r"\w+", text)), False
    found = candidates(fault, new, place, list(changes(old, new)))
    lists = {path[:-1] for path, _ in found if path and isinstance(path[-1], int)}
    if fault == "F6" and len(found) > 1 and len(lists) == 1:
        return lists.pop(), False
    if not found:
        return place, False
    assert len(found) == 1, (name, found)
    return found[0]


def position(text, path, of_name=False):
    """Line and column of a path in a JSON text, by Python's parser."""
    node, key = ast.parse(text, mode="eval").body, None
    for step in path:
        if isinstance(node, ast.Dict):
            at = max(n for n, key in enumerate(node.keys) if key.value == step)
            key, node = node.keys[at], node.values[at]
        else:
            node = node.elts[step]
    node = key if of_name else node
    line = text.split("\n")[node.lineno - 1].encode()
    return node.lineno, len(line[:node.col_offset].decode()) + 1


def spread(text):
    """The same JSON over many lines."""
    pieces = re.findall(r'"(?:[^"\\]|\\.)*"|[^"]', text)
    return "".join(piece + "\n" + " " * (n % 7) if piece in "{[,:" else piece for n, piece in enumerate(pieces))


# ---- the rows

class Row:
    def __init__(self, folder, name):
        self.name = name
        self.data = content(folder, name)
        self.words = content(folder, name + ".args").decode().replace("{}", "case").splitlines()
        self.due = content(folder, name + ".stdout")

    @property
    def lines(self):
        return self.due.decode("utf-8", "surrogateescape").splitlines()

    @property
    def refusal(self):
        return self.lines[0] if self.due.startswith((b"refused ", b"denied ")) else None

    def text(self):
        return self.data.decode("utf-8", "surrogateescape")

    def found(self, data=None):
        with open("case", "wb") as file:
            file.write(self.data if data is None else data)
        return refusals.explained(calls.Call(self.words), self.refusal)


def content(*path):
    with open(os.path.join(*path), "rb") as file:
        return file.read()


def rows(folder):
    """Runs the tables, lays their files into the folder, and gives each row whose whole output is due."""
    cases = os.path.join(folder, "cases")
    os.mkdir(cases)
    for table in TABLES:
        told = subprocess.run([sys.executable, os.path.join(TESTS, table + ".py"), cases], check=True,
                              stdout=subprocess.PIPE, text=True).stdout
        for line in told.splitlines():
            name, path = line.split("=", 1)
            os.symlink(path, os.path.join(folder, name))
    for sample in sorted(os.listdir(SAMPLES)):
        at = os.path.join(SAMPLES, sample)
        for file in sorted(os.listdir(at)) if os.path.exists(os.path.join(at, "run.txt")) else []:
            if file.endswith(".s") and not os.path.exists(os.path.join(folder, file)):
                os.symlink(os.path.join(at, file), os.path.join(folder, file))
    there = set(os.listdir(cases))
    names = sorted(name.removesuffix(".stdout") for name in there if name.endswith(".stdout"))
    return [Row(cases, name) for name in names if name + ".room" not in there]


def marks(texts):
    """Each text without its mark, and the line and column at which it stood."""
    out = {}
    for text in texts:
        before, after = text.split("»")
        out[before + after] = before.count("\n") + 1, len(before) - before.rfind("\n")
    return out


SOURCES, SCRIPTS, POLICIES = marks(marked.SOURCES), marks(marked.SCRIPTS), marks(marked.POLICIES)
NO_JSON = marks(marked.NO_JSON)
USED = set()


def marked_place(places, text):
    """The line and column of a text's mark; None where it has none."""
    USED.add(text)
    return places.get(text)


def source_place(row, owner):
    """The place in an owner's source, by its text."""
    firmware = json.loads(row.text())
    file = next(it["code"]["file"] for it in firmware["compartments"] + firmware.get("libraries", [])
                if it["name"] == owner)
    return file, marked_place(SOURCES, read(file))


def read(file):
    with open(file, encoding="utf-8", errors="surrogateescape", newline="") as opened:
        return opened.read()


def link_path(row, owner, item):
    firmware = json.loads(row.text())
    for key in ("compartments", "libraries"):
        for index, it in enumerate(firmware.get(key, [])):
            if it["name"] == owner:
                return key, index, "exports", item, "at"
    return None


def expected(row, old):
    """The file, line and column of a row's refusal; None where another check is made."""
    words = row.refusal.split(" ")
    status, rest = words[1], words[3:]
    if status == "4" and rest[0] == "F1":
        return "case", marked_place(NO_JSON, row.text())
    if status == "4":
        new = json.loads(row.text())
        path, of_name = expected_member(row.name, rest[0], part(rest[1], int(rest[2]), int(rest[3])), old, new)
        return "case", position(row.text(), path, of_name)
    if status == "5" or status == "6" and rest[0] in ("L3", "L4"):
        return source_place(row, rest[1])
    if status == "6":
        path = ("ram", "size") if rest[0] == "L2" else link_path(row, rest[1], int(rest[2]))
        return "case", position(row.text(), path)
    if status in ("8", "13"):
        return row.words[-1], marked_place(SCRIPTS if status == "8" else POLICIES, read(row.words[-1]))
    return None


def spread_fault(row, old):
    """What differs where a description that is refused is spread over lines."""
    words = row.refusal.split(" ")
    if words[1] != "4" or words[3] == "F1":
        return None
    wide = Row.__new__(Row)
    wide.__dict__.update(row.__dict__, data=spread(row.text()).encode("utf-8", "surrogateescape"))
    return place_fault(wide, old)


def place_fault(row, old):
    found, due = row.found(), expected(row, old)
    if not found:
        return "isn't explained"
    if due is None:
        return None
    file, place = due
    return None if place and found[0].head() == f"{file}:{place[0]}:{place[1]}" else \
        f"explained at {found[0].head()}, due is {due}"


def image_fault(row):
    """What differs in the explanation of an image's fault: the byte, and the field where it stands in marked.py."""
    number, place = row.refusal.split(" ")[3:]
    found = row.found()
    field = marked.FIELDS.get(row.name.removeprefix("altered_").removesuffix("_upgrade"))
    if row.name.startswith("altered_") and found and found[0].member != field:
        return f"explained as {found[0].member}, due is {field}"
    inside_field = found and found[0].start == int(place) and (number in ("I1", "I2") or found[0].end > int(place))
    return None if inside_field else "isn't explained at its byte"


def denied_fault(row):
    for line in row.lines:
        found = refusals.explained(calls.Call(row.words), line)
        if not found or found[0].text.place(found[0].start)[0] != int(line.split(" ")[1]):
            return f"{line} isn't explained in its line"
    return accepted_fault(row)


def entry_name(entry):
    """What an entry of a report is."""
    kind = entry["kind"]
    if kind in ("code", "globals", "stack"):
        return f"the {kind} of {entry['owner']}"
    what = kind if kind in ("quota", "key", "export") else "import"
    return f"the {what} {entry['name']} of {entry['owner']}"


def accepted_fault(row):
    """What is found in the files of a row that isn't refused, though nothing is; a denial refuses no file."""
    with open("case", "wb") as file:
        file.write(row.data)
    if row.words[0] in ("runimage", "upgrade", "demo") or row.words[1:2] != ["case"]:
        return None
    if descriptions.first(Text.read("case")):
        return "its description has a fault"
    d = descriptions.Description.read("case")
    for name in d.names("compartments") + d.names("libraries"):
        owner = d.owner(name)
        text = linking.file_of(owner)
        if text and assembly.first(text, linking.slots(owner)):
            return f"{text.file} has a fault"
    if row.words[0] == "check" and rules.first_of_policy(Text.read(row.words[-1]), d):
        return "its policy has a fault"
    devices = [(node.text("name"), node.text("kind")) for node in d.top.items("devices")]
    if row.words[0] == "run" and len(row.words) == 4 and rules.first_of_script(Text.read(row.words[3]), devices):
        return "its script has a fault"
    if row.words[0] in ("audit", "run"):
        due = [entry_name(entry) for entry in json.loads(row.lines[0])["entries"]]
        return None if due == [entry[0] for entry in linking.entries(d)][1:] else "its entries differ"
    return None


def lawful_fault(row):
    """Of a row that is read as far as a source that isn't there: its description has no fault."""
    found = row.found()
    if not found:
        return "isn't explained"
    case = row.words[1:2] == ["case"] and row.words[0] not in ("runimage", "upgrade")
    return "its description has a fault" if case and descriptions.first(Text.read("case")) else None


def fault(row, old):
    if row.refusal is None:
        return accepted_fault(row)
    row.found()
    status = row.refusal.split(" ")[1]
    if row.refusal.startswith("denied "):
        return denied_fault(row)
    if status == "7":
        return image_fault(row)
    if status == "2":
        return lawful_fault(row)
    return place_fault(row, old) or spread_fault(row, old)


def told_paths():
    """What differs between the paths of parts that docs/use/errors.md tells and those of explain.py."""
    with open(ERRORS, encoding="utf-8") as file:
        told = dict(re.findall(r"^\| `(\w+)` \| `(\.[^`]*)` \|$", file.read(), re.M))
    due = {word: descriptions.place_path(word, "INDEX", "ITEM") or "." for word in ("firmware", "ram", *LISTS, *INNER)}
    return [f"errors.md has other paths of parts: {told}"] * (told != due)


def kind(row):
    """What is refused, in a word."""
    if not row.refusal:
        return "accepted"
    words = row.refusal.split(" ")
    if words[0] == "denied" or words[1] in ("1", "2", "11"):
        return words[0 if words[0] == "denied" else 2]
    return words[3].rstrip("0123456789")


def main():
    old, faults, counts = json.loads(whole()), [], {}
    with tempfile.TemporaryDirectory() as folder:
        all_rows = rows(folder)
        os.chdir(folder)
        for row in all_rows:
            counts[kind(row)] = counts.get(kind(row), 0) + 1
            told = fault(row, old)
            if told:
                faults.append(f"{row.name}: {row.refusal}: {told}")
        os.chdir(HERE)
    faults += told_paths()
    faults += [f"a mark of no row: {text!r}" for places in (SOURCES, SCRIPTS, POLICIES, NO_JSON) for text in places
               if text not in USED]
    print("\n".join(faults), end="\n" * bool(faults))
    print(f"{len(faults)} of {len(all_rows)} rows differ: " +
          ", ".join(f"{count} {what}" for what, count in sorted(counts.items())))
    return 1 if faults else 0


if __name__ == "__main__":
    sys.exit(main())
