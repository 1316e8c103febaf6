"""Where the faults of linking are: in the sources, and in the description that names them (docs/use/description.md)."""
from places import assembly, tables
from places.texts import Found, Text, meant

LARGEST = 3  # regions that a hint names


def slots(owner):
    """The names of an owner's slots."""
    node = owner.node
    keys = [f"key{key.number()}" for key in node.items("keys")]
    return ["switch"] * (owner.part == "compartment") + [row.text("as") for row in node.items("imports")] + \
        [row.text("name") for row in node.items("quotas")] + keys


def file_of(owner):
    """The source of an owner, or None where its code is words."""
    code = owner.node.get("code")
    node = code.get("file") if code else None
    return Text.read(node.value) if node else None


def line_fault(d, number, name, line):
    """A line of an owner's source: A1 to A8 and L3."""
    owner = d.owner(name)
    text = file_of(owner) if owner else None
    told = assembly.first(text, slots(owner)) if text else None
    return [told[2]] if told and told[:2] == (number, line) else []


def wrong_place(d, at, source, length):
    """Why an export can't begin at its place, with hints."""
    if at.kind != "text":
        return f"{at.value} isn't a multiple of 4 below the text's {length} bytes", []
    labels = source.labels()
    names = [name for name, statement in labels.items() if statement.section == "text"]
    target = labels.get(at.value)
    if target is None:
        return f'the source has no label "{at.value}"', meant(at.value, names, "labels of the text")
    where = f"{source.text.file}:{target.line}"
    if target.section == "data":
        return f'"{at.value}" is a label of the data', [f"it stands at {where}"]
    return f'no code stands at "{at.value}"', [f"the label at {where} is at the text's end"]


def export_fault(d, name, item):
    owner = d.owner(name)
    exports = owner.node.items("exports") if owner else []
    if item >= len(exports):
        return []
    text = file_of(owner)
    source = assembly.Source(text) if text else None
    words = owner.node.get("code").items("words")
    length = source.sizes["text"] if source else 4 * len(words)
    at = exports[item].get("at")
    says, hints = wrong_place(d, at, source, length)
    return [d.found(at, f"{owner.path}.exports[{item}].at",
                    f"L1: export {exports[item].text('name')} of {name}: {says}", *hints)]


def room_fault(d, needed, has):
    size = d.top.get("ram").get("size")
    large = [(row.get("stack").number(), f"the stack of {row.text('name')}") for row in d.top.items("threads")]
    large += [(row.get("globals").number(), f"the globals of {row.text('name')}") for row in d.top.items("compartments")
              if row.get("globals")]
    large += [(row.get("size").number(), f"the shared object {row.text('name')}") for row in d.top.items("shared")]
    large.sort(key=lambda row: -row[0])
    hints = ["largest: " + ", ".join(f"{what} {count}" for count, what in large[:LARGEST])] if large else []
    least = -(-needed // tables.UNIT) * tables.UNIT
    return [d.found(size, ".ram.size", f"L2: the regions need {needed} bytes of RAM, and it has {has}",
                    f"{least} are enough", *hints)]


def data_fault(d, name):
    owner = d.owner(name)
    text = file_of(owner) if owner else None
    for statement in assembly.Source(text).statements if text else []:
        if statement.section == "data" and statement.word and assembly.size(statement):
            found = assembly.Source(text).found(statement.line, statement.word,
                                                f"L4: {name} is a library, which has no globals for data",
                                                "words and code may stand in the text; data stand in a compartment")
            return [found]
    return []


def missing_file(d, words, file):
    """Where a file that can't be read, or is too large, is named: in the words, or as code."""
    for part in ("compartment", "library"):
        for index, node in enumerate(d.top.items(tables.OUTER[part]) if d else []):
            named = node.get("code").get("file") if node.get("code") else None
            if named and named.value == file:
                return d.found(named, f".{tables.OUTER[part]}[{index}].code.file", "")
    return Found(" ".join(words), 0, 0, "", "")


def entries(d):
    """Every entry of the report, by its number: what it is, and its place in the description."""
    out = [("", None, "")]
    for part, key in (("compartment", "compartments"), ("library", "libraries")):
        for index, node in enumerate(d.top.items(key)):
            name, path = node.text("name"), f".{key}[{index}]"
            out.append((f"the code of {name}", node, path))
            if part == "compartment":
                out += [(f"the globals of {name}", node, path), (f"the import switch of {name}", node, path)]
            for inner, what in (("imports", "import"), ("quotas", "quota"), ("keys", "key"), ("exports", "export")):
                for item, row in enumerate(node.items(inner)):
                    own = row.text("as") or row.text("name") or f"key{row.number()}"
                    out.append((f"the {what} {own} of {name}", row, f"{path}.{inner}[{item}]"))
    out += [(f"the stack of {row.text('name')}", row, f".threads[{index}]") for index, row in
            enumerate(d.top.items("threads"))]
    return out
