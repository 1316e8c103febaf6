"""What is found for a line in which capfw refuses or denies, by the words of the call."""
import os
import re

from places import descriptions, image_faults, linking, rules
from places.calls import FORMS, LAST_IS_OPTIONAL
from places.hops import Hops
from places.images import Image
from places.kinds import taken_for
from places.members import NoJson
from places.texts import Found, Text, meant
from places.warnings import twice

MOST_STEPS, MOST_NUMBER = 4_000_000_000, 2 ** 32 - 1
LARGEST_FILE = 16_777_216


# ---- each refusal, by its status: what is found

def usage(call, *_):
    words = call.words
    if not words or words[0] not in FORMS:
        return [call.word(0, "1: no command", meant(words[0] if words else "", FORMS, "commands"))]
    form = FORMS[words[0]]
    hint = [f"written {words[0]} {' '.join(form)}" + (", the last one or not" if words[0] in LAST_IS_OPTIONAL else "")]
    if len(words) - 1 > len(form):
        return [call.word(len(form) + 1, "1: a word too many", hint)]
    if len(words) - 1 < len(form) - (words[0] in LAST_IS_OPTIONAL):
        return [call.word(len(words), "1: a word is missing", hint)]
    for index, name in enumerate(form, 1):
        least, most = {"LIMIT": (1, MOST_STEPS), "NUMBER": (0, MOST_NUMBER)}.get(name, (0, 0))
        why = rules.number_fault(words[index], least, most) if most else None
        if why:
            return [call.word(index, f"1: {name}: {why}", hint)]
    return []


def near_files(call, file):
    """Hints on a file that isn't there."""
    folder, name = os.path.split(file)
    beside = os.path.join(os.path.dirname(call.named.get("DESC", "")), file)
    if beside != file and os.path.isfile(beside):
        return [f"{beside} is there: names count from the folder of the call, so cd {os.path.dirname(beside)} first"]
    there = sorted(os.listdir(folder or ".")) if os.path.isdir(folder or ".") else []
    return meant(name, there)


def unread(call, file):
    """Where a file is named that couldn't be read."""
    why = "it is a folder" if os.path.isdir(file) else "it isn't there" if not os.path.exists(file) else \
        "it can't be read"
    return [at_file(call, file, f"2: {why}", near_files(call, file) if why == "it isn't there" else [])]


def at_file(call, file, says, hints):
    if file in call.words[1:]:
        return call.word(call.words.index(file, 1), says, hints)
    found = linking.missing_file(call.description(), call.words, file)
    found.says, found.hints = says, list(hints)
    return found


def large(call, file):
    says = f"3: it has {os.path.getsize(file)} bytes, {LARGEST_FILE} are allowed"
    return [at_file(call, file, says, ["is it the file that was meant?"])]


def hinted(found, wanted, text):
    """What is found, with a hint where the file looks like one of another kind."""
    for it in found[:1]:
        it.hints += taken_for(wanted, text.data)
    return found


def description(call, number, part, index, item):
    text = Text.read(call.named["DESC"])
    return hinted(descriptions.find(text, number, part, int(index), int(item)), "a description", text)


def source(call, number, owner, line):
    return linking.line_fault(call.description(), number, owner, int(line))


def link(call, number, first, second):
    if number == "L2":
        return linking.room_fault(call.description(), int(first), int(second))
    if number == "L4":
        return linking.data_fault(call.description(), first)
    if number == "L3":
        return linking.line_fault(call.description(), number, first, int(second))
    return linking.export_fault(call.description(), first, int(second))


def image(call, number, place):
    return image_faults.find(call.named["IMAGE"], image_bytes(call), number, int(place))


def image_bytes(call):
    with open(call.named["IMAGE"], "rb") as file:
        return file.read()


def script(call, number, line):
    if "IMAGE" in call.named:
        devices = [(name, kind) for name, kind, _ in Image(image_bytes(call)).devices]
    else:
        devices = [(node.text("name"), node.text("kind")) for node in call.description().top.items("devices")]
    text = Text.read(call.named["SCRIPT"])
    return hinted(spot_of_first(rules.first_of_script(text, devices), number, line), "a script", text)


def policy(call, number, line):
    text = Text.read(call.named["POLICY"])
    return hinted(spot_of_first(rules.first_of_policy(text, call.description()), number, line), "a policy", text)


def spot_of_first(first, number, line):
    return [first[2]] if first and first[:2] == (number, int(line)) else []


def no_name(call, *_):
    d = call.description()
    owners, compartments = d.names("compartments") + d.names("libraries"), d.names("compartments")
    for index, name, names, what in ((2, call.words[2], owners, "owners"), (3, call.words[3], compartments,
                                                                          "compartments")):
        if name not in names:
            hints = meant(name, names, what)
            if name in owners:
                hints = ["it is a library; a compartment is wanted here"]
            elif name in d.names("threads"):
                hints = ["it is a thread, which owns nothing but its stack"]
            return [call.word(index, f"11: no {'compartment or library' if what == 'owners' else 'compartment'} "
                                     "has this name", hints)]
    return []


def denied(call, line, *rest):
    """The rule that is broken, and the entry that breaks it."""
    rule = Text.read(call.named["POLICY"])
    start = rule.at(int(line), 1)
    if rest[0] == "path":
        says = f"12: {rest[1]} reaches {rest[-1]}" + (f" by {', '.join(rest[2:-1])}" if rest[2:-1] else "")
        return [Found(rule, start, start + len(rule.line(int(line))), "", says), *hops(call, rest[1:])]
    d = call.description()
    what, node, path = linking.entries(d)[int(rest[0])]
    found = Found(rule, start, start + len(rule.line(int(line))), "", f"12: broken by entry {rest[0]}, {what}")
    return [found, d.found(node, path, f"entry {rest[0]}")]


def hops(call, names):
    """Where each step of a path is."""
    return Hops(call.description()).path(names)


REFUSALS = {"1": usage, "2": unread, "3": large, "4": description, "5": source, "6": link, "7": image, "8": script,
            "11": no_name, "13": policy}


def explained(call, line):
    """What is found for a line of capfw; None where it is no refusal, no denial and no path."""
    words = line.split(" ")
    if words[0] == "path" and call.words[:1] == ["why"]:
        return hops(call, words[1:])
    if words[0] == "denied" and re.fullmatch(r"denied [0-9]+ ([0-9]+|path( [^ ]+)+)", line):
        return denied(call, *words[1:])
    if words[0] != "refused" or len(words) < 3 or words[1] not in REFUSALS:
        return None
    rest = [line.split(" ", 3)[3]] if words[1] in ("2", "3") else words[3:]
    return REFUSALS[words[1]](call, *rest)


def warned(call):
    """What a description is warned of, where there is one that can be read."""
    try:
        d = call.description()
    except (OSError, NoJson, LookupError, RecursionError):
        return []
    return list(twice(d.text, d.top))
