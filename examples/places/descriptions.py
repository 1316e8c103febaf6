"""The member of a description that a fault F1 to F10 is about (docs/use/description.md)."""
import re
from dataclasses import dataclass

from places import tables
from places.members import Node, NoJson, parse
from places.texts import Found, Text, meant, near

A_NUMBER = "a number is wanted: decimal digits without quotes, sign, point, exponent"


@dataclass
class Spot:
    """A part of a description: its word, its node, the path of jq to it, and what holds its list."""
    part: str
    node: Node
    path: str
    owner: Node


class Description:
    """A description's text and its value."""

    def __init__(self, text):
        self.text, self.top = text, parse(text.text)

    @classmethod
    def read(cls, file):
        return cls(Text.read(file))

    def spot(self, part, index, item):
        """The part of a place, or None where there is none."""
        if part == "firmware":
            return Spot(part, self.top, "", self.top)
        if part == "ram":
            node = self.top.get("ram")
            return Spot(part, node, ".ram", self.top) if node else None
        try:
            if part in tables.OUTER:
                key = tables.OUTER[part]
                return Spot(part, self.top.items(key)[index], f".{key}[{index}]", self.top)
            outer, key = tables.INNER[part]
            owner = self.top.items(outer)[index]
            return Spot(part, owner.items(key)[item], f".{outer}[{index}].{key}[{item}]", owner)
        except IndexError:
            return None

    def spots(self):
        """Every part in the order in which places are walked."""
        yield self.spot("firmware", 0, 0)
        for part, key in (("ram", "ram"), *tables.OUTER.items()):
            count = len(self.top.items(key)) if part != "ram" else int(self.top.get("ram") is not None)
            for index in range(count):
                yield self.spot(part, index, 0)
                for inner, (outer, inner_key) in tables.INNER.items():
                    for item in range(len(self.top.items(outer)[index].items(inner_key)) if outer == key else 0):
                        yield self.spot(inner, index, item)

    def found(self, node, member, says, *hints):
        return Found(self.text, node.start, node.end, member, says, list(hints))

    def names(self, key):
        return [node.text("name") for node in self.top.items(key)]

    def exports(self, key):
        """Each export of these owners as `owner.export`."""
        return [f"{owner.text('name')}.{export.text('name')}" for owner in self.top.items(key)
                for export in owner.items("exports")]

    def owner(self, name):
        """A compartment or a library, as its part."""
        for part in ("compartment", "library"):
            for index, node in enumerate(self.top.items(tables.OUTER[part])):
                if node.text("name") == name:
                    return self.spot(part, index, 0)
        return None

    def version(self):
        version = self.top.get("version")
        number = 1 if version is None else version.number()
        return number if number in tables.VERSIONS else 2


def member_path(spot, name):
    return f"{spot.path}.{name}"


# ---- F1

def no_json(text, fault):
    return Found(text, fault.at, fault.at + 1, "", f"F1: this is no JSON text: {fault.why}")


# ---- F2

def is_hexadecimal(text, digits):
    return re.fullmatch(f"([0-9a-f]{{{digits}}})*", text) is not None


def kind_fault(kind, limits, node):
    """What is wanted of a member where its value isn't of its kind."""
    number, is_text = node.number(), node.kind == "text"
    if kind == tables.TEXT:
        return None if is_text else "a text is wanted, in double quotes"
    if kind == tables.CHOICE:
        return None if is_text and node.value in limits else "one of these is wanted: " + ", ".join(limits)
    if kind in (tables.NUMBER, tables.MULTIPLE):
        return None if number is not None else A_NUMBER
    if kind == tables.LIST:
        return None if node.kind == "list" else "a list is wanted, in square brackets"
    if kind == tables.OBJECT:
        return None if node.kind == "object" else "an object is wanted, in curly brackets"
    if kind == tables.BYTES:
        return None if is_text and is_hexadecimal(node.value, 2) else f"{kind} are wanted"
    return None if is_text or number is not None else f"{kind} is wanted"


def code_faults(d, spot, node):
    path = member_path(spot, "code")
    words, file = node.get("words"), node.get("file")
    if words is None and file is None:
        yield d.found(node, path, "code is words or a file: one of the two is wanted")
    elif words is not None and file is not None:
        yield d.found(node, path, "code is words or a file, and not both")
    elif file is not None and file.kind != "text":
        yield d.found(file, path + ".file", "a text is wanted, in double quotes")
    elif words is not None and words.kind != "list":
        yield d.found(words, path + ".words", "a list is wanted, in square brackets")
    for index, word in enumerate(words.value if words is not None and words.kind == "list" else []):
        if word.kind != "text" or not re.fullmatch("[0-9a-f]{8}", word.value):
            yield d.found(word, f"{path}.words[{index}]", "a word is eight lower-case hexadecimal digits in quotes")


def import_faults(d, spot):
    forms = [form for form in tables.FORMS if spot.node.get(form) is not None]
    rights = spot.node.get("rights")
    if len(forms) != 1:
        told = f"it has {' and '.join(forms)}" if forms else "it has none"
        yield d.found(spot.node, spot.path, f"an import has one of {', '.join(tables.FORMS)}: {told}")
    if any(form in tables.RIGHTS for form in forms):
        if rights is None:
            yield d.found(spot.node, spot.path, "rights are missing: they stand beside device and shared")
        elif rights.kind != "text":
            yield d.found(rights, member_path(spot, "rights"), "a text is wanted, in double quotes")


def label_faults(d, spot):
    code, at = spot.owner.get("code"), spot.node.get("at")
    if code is not None and code.get("words") is not None and at is not None and at.kind == "text":
        yield d.found(at, member_path(spot, "at"), "words have no labels: a byte offset is wanted")


def missing(d, spot, name):
    known = [row[0] for row in tables.MEMBERS[spot.part]]
    stray = [key for key in spot.node.value if key not in known]
    close = near(name, stray)
    hints = [f'is "{close}" meant to be "{name}"?'] if close else []
    return d.found(spot.node, spot.path, f"{name} is missing", *hints)


def kinds(d, spot):
    """F2 of a part: what is of another kind, and then what is missing."""
    if spot.part == "key":
        if spot.node.number() is None:
            yield d.found(spot.node, spot.path, "a number is wanted: 13, 14 or 15")
        return
    if spot.node.kind != "object":
        yield d.found(spot.node, spot.path, "an object is wanted, in curly brackets")
        return
    for name, needed, kind, limits in tables.MEMBERS[spot.part]:
        node = spot.node.get(name)
        if node is None:
            continue
        if kind == tables.CODE:
            yield from code_faults(d, spot, node)
            continue
        wanted = kind_fault(kind, limits, node)
        if wanted:
            hints = meant(node.value, limits) if kind == tables.CHOICE and node.kind == "text" else []
            yield d.found(node, member_path(spot, name), wanted, *hints)
    if spot.part == "import":
        yield from import_faults(d, spot)
    if spot.part in ("export", "lexport"):
        yield from label_faults(d, spot)
    for name, needed, kind, limits in tables.MEMBERS[spot.part]:
        if needed and spot.node.get(name) is None:
            yield missing(d, spot, name)


# ---- F3

def stray_members(d, spot):
    if spot.node.kind != "object":
        return
    known = [row[0] for row in tables.MEMBERS[spot.part]]
    if any(spot.node.get(form) is not None for form in tables.RIGHTS) and spot.part == "import":
        known.append("rights")
    for holder, path, names in ((spot.node, spot.path, known),
                                (spot.node.get("code"), member_path(spot, "code"), tables.CODE_MEMBERS)):
        if holder is None or holder.kind != "object" or holder is not spot.node and "code" not in known:
            continue
        for name in holder.value:
            if name not in names:
                start, end = holder.name_range(name)
                hints = meant(name, [other for other in names if holder.get(other) is None], "not yet there")
                if name == "rights":
                    hints = ["rights stand beside device and shared alone"]
                yield Found(d.text, start, end, f"{path}.{name}", f"this isn't a member of {part_name(spot)}", hints)


def part_name(spot):
    words = {"firmware": "the description", "ram": "RAM", "import": "such an import", "limport": "a library's import",
             "lexport": "a library's export", "export": "a compartment's export"}
    return words.get(spot.part, f"a {spot.part}")


# ---- F4 and F5

def name_key(spot):
    """The member that names a part; None for RAM and keys."""
    if spot.part in ("ram", "key"):
        return None
    return {"firmware": "firmware", "import": "as", "limport": "as"}.get(spot.part, "name")


def name_fault(name):
    """Why a text isn't a name, or None."""
    stray = re.search("[^a-z0-9_]", name)
    if name == "":
        return "it is empty"
    if stray:
        capital = f': "{name.lower()}" is one' if re.fullmatch("[a-z][a-z0-9_]{0,31}", name.lower()) else ""
        return f'"{stray.group()}" at {stray.start() + 1} is no lower-case letter, digit or _{capital}'
    if not name[0].isalpha():
        return "it begins with no lower-case letter"
    return f"it has {len(name)} characters, 32 are allowed" if len(name) > 32 else None


def bad_names(d, spot):
    key = name_key(spot)
    why = name_fault(spot.node.text(key)) if key else None
    if why:
        yield d.found(spot.node.get(key), member_path(spot, key), "this isn't a name: " + why)


def space(spot):
    """Which names a part's name must differ from."""
    if spot.part in ("compartment", "library", "thread"):
        return "compartments, libraries and threads", None
    if spot.part in ("import", "quota", "key", "limport"):
        return "the slots of " + spot.owner.text("name"), id(spot.owner)
    if spot.part in ("export", "lexport"):
        return "the exports of " + spot.owner.text("name"), id(spot.owner)
    return tables.OUTER.get(spot.part, spot.part), None


def named(spot):
    """What bears a part's name: its node, its path, the name."""
    key = name_key(spot)
    if key is None:
        return spot.node, spot.path, f"key{spot.node.number()}"
    return spot.node.get(key), member_path(spot, key), spot.node.text(key)


def all_twice(d):
    """Each part whose name stands before it in its space, with what is found."""
    seen = {}
    for spot in d.spots():
        node, path, name = named(spot)
        if spot.part in ("firmware", "ram") or node is None:
            continue
        words, holder = space(spot)
        earlier = seen.setdefault((words, holder, name), node)
        if spot.part in ("import", "quota", "key") and name == "switch":
            yield spot, d.found(node, path, '"switch" names the first slot of a compartment, which is there by itself')
        elif earlier is not node:
            line, column = d.text.place(earlier.start)
            yield spot, d.found(node, path, f'"{name}" stands twice among {words}',
                                f"before it at {d.text.file}:{line}:{column}")


def twice(d, spot):
    return [found for other, found in all_twice(d) if other.path == spot.path]


# ---- F6

def limit_fault(kind, limits, node):
    number = node.number()
    if kind in (tables.NUMBER, tables.MULTIPLE):
        low, high = limits
        if not low <= number <= high:
            return f"{number} isn't {low} to {high}"
        if kind == tables.MULTIPLE and number % tables.UNIT:
            least = number - number % tables.UNIT
            return f"{number} is no multiple of {tables.UNIT}; {least} and {least + tables.UNIT} are"
    if kind == tables.LIST and len(node.value) > limits[0]:
        return f"the list has {len(node.value)} elements, {limits[0]} are allowed"
    if kind == tables.BYTES and not limits[0] <= len(node.value) // 2 <= limits[1]:
        return f"{len(node.value) // 2} bytes, {limits[0]} to {limits[1]} are allowed"
    return None


def code_limits(d, spot, node):
    words, file = node.get("words"), node.get("file")
    if words is not None and len(words.value) > tables.MOST_BYTES // 4:
        yield d.found(words, member_path(spot, "code.words"), f"{len(words.value)} words, "
                      f"{tables.MOST_BYTES // 4} are allowed")
    if file is not None and not 1 <= len(file.value) <= 255:
        yield d.found(file, member_path(spot, "code.file"), f"the file's name has {len(file.value)} characters, "
                      "1 to 255 are allowed")


def version_limits(d, spot):
    """What the limits of the version don't allow, though those of the members do."""
    (least, most), ram, threads = tables.VERSIONS[d.version()]
    more = "" if d.version() == 2 else '; version 2 allows more ("version": 2)'
    node = d.top.get
    if spot.part == "firmware":
        sweep, list_of_threads = node("sweep"), node("threads")
        if sweep is not None and not least <= sweep.number() <= most:
            yield d.found(sweep, ".sweep", f"{sweep.number()} isn't {least} to {most} in version {d.version()}{more}")
        if list_of_threads is not None and len(list_of_threads.value) > threads:
            count = len(list_of_threads.value)
            yield d.found(list_of_threads, ".threads", f"{count} threads, {threads} are allowed in version "
                          f"{d.version()}{more}")
    if spot.part == "ram":
        base, size = spot.node.get("base"), spot.node.get("size")
        if size.number() > ram:
            yield d.found(size, ".ram.size", f"{size.number()} is more than {ram} in version {d.version()}{more}")
        if base.number() + size.number() > tables.RAM_END:
            yield d.found(base, ".ram.base", f"RAM would end at {base.number() + size.number()}, and it ends at "
                          f"{tables.RAM_END} at most")


def limits(d, spot):
    if spot.part == "key":
        if not 13 <= spot.node.number() <= 15:
            yield d.found(spot.node, spot.path, f"{spot.node.number()} isn't 13 to 15")
        return
    for name, _, kind, bounds in tables.MEMBERS[spot.part]:
        node = spot.node.get(name)
        if node is None:
            continue
        if kind == tables.CODE:
            yield from code_limits(d, spot, node)
            continue
        why = limit_fault(kind, bounds, node)
        if why:
            yield d.found(node, member_path(spot, name), why)
    yield from version_limits(d, spot)


# ---- F7, F8 and F9

def reference_hints(d, form, name, options):
    """What was meant by a name that isn't there."""
    others = {"call": "compartments", "library": "libraries"}
    for other, key in others.items():
        if form in others and other != form and name in d.exports(key):
            yield f'"{name}" is an export of one of the {key}: as an import it is {{"{other}": "{name}"}}'
            return
    for key in ("devices", "shared", "sealed"):
        if form in tables.FORMS[:3] and name in d.names(key):
            word = {"devices": "device", "shared": "shared", "sealed": "sealed"}[key]
            yield f'"{name}" is among {key}: as an import it is {{"{word}": "{name}"}}'
            return
    if form in others and "." not in name:
        owner = [option for option in options if option.split(".")[0] == name]
        yield from [f'it is owner.export: {", ".join(owner)}'] if owner else meant(name, options, "it is owner.export")
        return
    yield from meant(name, options, "there is") or ["there is none"]


def references(d, spot):
    options = {"device": d.names("devices"), "shared": d.names("shared"), "sealed": d.names("sealed"),
               "call": d.exports("compartments"), "library": d.exports("libraries")}
    wanted = {"import": options, "limport": {"library": options["library"]},
              "thread": {"entry": options["call"]}}.get(spot.part, {})
    for key, names in wanted.items():
        node = spot.node.get(key)
        if node is not None and node.value not in names:
            form = "call" if key == "entry" else key
            yield d.found(node, member_path(spot, key), f'"{node.value}" isn\'t there',
                          *reference_hints(d, form, node.value, names))


def rights(d, spot):
    node = spot.node.get("rights")
    for form, allowed in tables.RIGHTS.items():
        if spot.node.get(form) is not None and node is not None and node.value not in allowed:
            same = [text for text in allowed if sorted(text) == sorted(node.value.upper())]
            hint = f'did you mean "{same[0]}"?' if same else f"rights of a {form}{' object' * (form == 'shared')}: " + \
                ", ".join(allowed)
            yield d.found(node, member_path(spot, "rights"), f'"{node.value}" isn\'t among them', hint)


def services(d, spot):
    node = spot.node.get("service")
    if node is not None and node.value not in tables.SERVICES:
        hints = ["switch is there by itself, as the first slot"] if node.value == "switch" else \
            meant(node.value, tables.SERVICES, "services")
        yield d.found(node, member_path(spot, "service"), f'"{node.value}" is no service', *hints)


# ---- F10

def meets(base, length, other, size):
    return base < other + size and other < base + length


def address_conflict(d, spot):
    """What an address of RAM or of a device meets."""
    base = spot.node.get("base")
    length = tables.UNIT if spot.part == "device" else spot.node.get("size").number()
    path, at = member_path(spot, "base"), base.number()
    ram = d.top.get("ram")
    if spot.part == "device" and at % tables.UNIT:
        yield d.found(base, path, f"{at:#010x} is no multiple of {tables.UNIT}; {at - at % tables.UNIT} is")
    if meets(at, length, *tables.NATIVE):
        yield d.found(base, path, f"{at:#010x} to {at + length - 1:#010x} meets the native entries, "
                      "0x00010000 to 0x00010fff")
    if spot.part == "ram":
        return
    first, size = ram.get("base").number(), ram.get("size").number()
    if meets(at, length, first, size):
        yield d.found(base, path, f"{at:#010x} meets RAM, {first:#010x} to {first + size - 1:#010x}")
    for index, other in enumerate(d.top.items("devices")):
        if other is spot.node:
            return
        if meets(at, length, other.get("base").number(), tables.UNIT):
            yield d.found(base, path, f"{at:#010x} meets {other.text('name')}, .devices[{index}]")


JUDGES = {"F2": kinds, "F3": stray_members, "F4": bad_names, "F5": twice, "F6": limits, "F7": references, "F8": rights,
          "F9": services, "F10": address_conflict}


def judged(d, fault):
    """Each part that has a fault of this number, with all that is found there."""
    if fault == "F5":
        for spot, found in all_twice(d):
            yield spot, [found]
        return
    for spot in d.spots():
        if fault != "F10" or spot.part in ("ram", "device"):
            all_found = sorted(JUDGES[fault](d, spot), key=lambda found: found.start)
            if all_found:
                yield spot, all_found


def first(text):
    """The fault of a description: its number, its part's path, and what is found there. None where there is none."""
    try:
        d = Description(text)
    except NoJson as fault:
        return "F1", "", [no_json(text, fault)]
    for fault in JUDGES:
        for spot, all_found in judged(d, fault):
            for found in all_found:
                found.says = f"{fault}: {found.says}"
            return fault, spot.path, all_found
    return None


def place_path(part, index, item):
    """The path of jq to a place."""
    if part in ("firmware", "ram"):
        return "" if part == "firmware" else ".ram"
    if part in tables.OUTER:
        return f".{tables.OUTER[part]}[{index}]"
    outer, inner = tables.INNER[part]
    return f".{outer}[{index}].{inner}[{item}]"


def find(text, fault, part, index, item):
    """Everything that is at fault at the place of a refusal, the first in the text first; nothing where the text has
    another fault, or none."""
    told = first(text)
    return told[2] if told and told[:2] == (fault, place_path(part, index, item)) else []
