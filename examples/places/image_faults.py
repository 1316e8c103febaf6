"""Which field of an image a fault I1 to I6 is about (docs/use/image.md)."""
from places.images import KINDS, Image
from places.kinds import taken_for
from places.texts import Found

ROW_BYTES = 16
FAULTS = {
    "I1": "no image, or of no version that is known", "I2": "the bytes end too early or too late",
    "I3": "a number or a name that isn't as it must be", "I4": "a region lies where it mustn't",
    "I5": "something that names what isn't there, or a slot out of order",
    "I6": "rights that aren't those of the slot's kind"}

# What a field must be, by the last words of its name.
RULES = {
    "version": "1 or 2", "quantum": "1 to 1,000,000", "sweep rate": "1 to 65,536", "RAM's base": "a multiple of 16",
    "RAM's size": "256 to 8,388,608 (in version 2 to 67,108,864), a multiple of 16; RAM ends at 4,294,967,280 at most",
    "number of devices": "at most 16", "number of shared objects": "at most 64", "number of sealed objects":
    "at most 64", "number of compartments": "at most 64", "number of libraries": "at most 32", "number of threads":
    "at most 16, in version 2 64", "name": "a lower-case letter, then lower-case letters, digits and _, at most 32; "
    "zeros behind; once in its space", "kind": "1 serial port, 2 timer, 3 pins", "type": "13 to 15",
    "length of its code": "at least 8 for each slot and the text", "bytes of text":
    "a multiple of 4, at most 1,048,576",
    "length of its globals": "16 to 1,048,576", "initial bytes": "at most as many as the globals have",
    "number of slots": "at most 148, of a library 128; at least the switch's of a compartment", "number of exports":
    "at most 64", "length": "1 to 1,048,576; of a stack 256 to 32,768", "number of bytes": "1 to its length",
    "priority": "0 to 15", "frames": "1 to 96", "padding": "zeros", "first number":
    "a service 0 to 12, a quota 0 to 2,147,483,647, a key 13 to 15", "second number": "0 but of calls and libraries",
    "third number": "0", "offset": "that of a word of the text", "stack": "0 to 32,752, of a library 0", "arguments":
    "0 to 6, of a library 0", "posture": "1 inherit (of a library alone), 2 disabled, 3 enabled", "passes":
    "1 capabilities, 2 data (of a compartment alone)", "entry": "its number in the report", "zero byte": "0",
    "slot's kind": "1 to 8", "rights": "six bits"}


def rule(name):
    """What a field must be."""
    return next((RULES[words] for words in sorted(RULES, key=len, reverse=True) if name.endswith(words)), None)


def value_of(it):
    if isinstance(it.value, bytes):
        return it.value[:8].hex(" ")
    return f'"{it.value}"' if isinstance(it.value, str) else f"{it.value} ({it.value:#x})"


def begin_fault(data):
    if len(data) < 8:
        return f"the file has {len(data)} bytes; an image begins with 43 54 46 57 and a version"
    if data[:4] != b"CTFW":
        return f"it begins with {data[:4].hex(' ')}, and an image with 43 54 46 57"
    return f"version {int.from_bytes(data[4:8], 'little')} isn't 1 or 2"


def slot_found(file, image, it, number):
    """What is found at a slot's row, whose first field is given."""
    at = image.fields.index(it)
    kind, rights, _, first, second, _, name = [other.value for other in image.fields[at:at + 7]]
    what = KINDS[kind - 1] if 1 <= kind <= len(KINDS) else "no kind"
    says = f"{number}: {FAULTS[number]}: {what}, rights {rights:06b}, numbers {first} and {second}"
    return Found(file, it.at, it.at + ROW_BYTES, f"{it.name.rsplit(':', 1)[0]}, {name}", says)


def find(file, data, number, place):
    """The field that a fault is about."""
    image = Image(data)
    if number == "I1":
        return [Found(file, 0, 8, "begin", f"I1: {begin_fault(data)}", taken_for("an image", data))]
    if number == "I2":
        left = len(data) - image.at
        says = "the bytes end inside this field" if image.cut else f"{left} bytes are left behind the last field"
        return [Found(file, place, place, image.cut or "end", f"I2: {says}", ["write the image anew: image DESC"])]
    it = image.field_at(place)
    if it is None:
        return []
    if it.name.endswith("slot's kind") and number in ("I5", "I6"):
        return [slot_found(file, image, it, number)]
    says = f"{number}: {FAULTS[number]}: {value_of(it)}"
    hints = [f"it must be {rule(it.name)}"] if number == "I3" and rule(it.name) else []
    return [Found(file, place, it.at + it.count, it.name, says, hints)]
