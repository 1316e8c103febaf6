#!/usr/bin/env python3
"""Worked rows of both sides of each limit of a description and of a file, and of the order in which parts are walked,
worked out from docs/use/description.md.

    limits.py OUT     writes the cases that cases.py tells of

Of a number or a length that has limits: the least and the most that are lawful, and one less and one more. A lawful
description is read as far as the file of its library's code, which isn't there.
"""
import copy
import json

from cases import case, image, sample, stored_file
from firmwares import WHOLE

LAWFUL = "refused 2 read nohex.s\n"


def described(name, change, number, wanted):
    firmware = json.loads(WHOLE)
    change(firmware, number)
    case(f"limit_{name}_{number}", ["audit", "{}"], json.dumps(firmware), wanted)


def limits(name, place, change, least, most, unit=1):
    """Rows of a number or length that has a least: what isn't lawful has its fault at this place."""
    described(name, change, least - unit, f"refused 4 description F6 {place}\n")
    upward(name, place, change, least, most, unit)


def upward(name, place, change, least, most, unit=1):
    """The same of one of which nothing less can be written."""
    for number in sorted({least, most}):
        described(name, change, number, LAWFUL)
    described(name, change, most + unit, f"refused 4 description F6 {place}\n")


def first(firmware, *names):
    """The first element of the list at the end of these names."""
    for name in names:
        firmware = firmware[name][0] if isinstance(firmware[name], list) else firmware[name]
    return firmware


def member(*names, version=1):
    """Sets the member of that part, or the part's first element."""
    def change(firmware, number):
        if version > 1:
            firmware["version"] = version
        first(firmware, *names[:-1])[names[-1]] = number
    return change


def filled(*names, of, version=1):
    """Adds elements to that list, up to so many; the element of a number is made by `of`."""
    def change(firmware, number):
        if version > 1:
            firmware["version"] = version
        rows = first(firmware, *names[:-1]).setdefault(names[-1], [])
        rows.extend(of(place) for place in range(len(rows), number))
    return change


def text_of_words(firmware, number):
    first(firmware, "compartments")["code"]["words"] = ["00008067"] * number


def initial_bytes(firmware, number):
    first(firmware, "sealed")["bytes"] = "5a" * number


def end_of_ram(firmware, number):
    firmware["ram"]["base"] = number - firmware["ram"]["size"]


def key(firmware, number):
    first(firmware, "compartments")["keys"] = [number]


# ---- numbers

limits("version", "firmware 0 0", member("version"), 1, 2)
limits("sweep", "firmware 0 0", member("sweep"), 64, 64)
limits("sweep_2", "firmware 0 0", member("sweep", version=2), 1, 65536)
limits("quantum", "firmware 0 0", member("quantum"), 1, 1_000_000)
limits("ram", "ram 0 0", member("ram", "size"), 256, 8_388_608, 16)
limits("ram_2", "ram 0 0", member("ram", "size", version=2), 256, 67_108_864, 16)
upward("ram_end", "ram 0 0", end_of_ram, 4096, 4_294_967_280, 16)
upward("device", "device 0 0", member("devices", "base"), 0, 4_294_967_280, 16)
limits("shared", "shared 0 0", member("shared", "size"), 1, 1_048_576)
limits("type", "sealed 0 0", member("sealed", "type"), 13, 15)
limits("bytes", "sealed 0 0", initial_bytes, 1, 1_048_576)
upward("globals", "compartment 0 0", member("compartments", "globals"), 0, 1_048_576)
upward("text", "compartment 0 0", text_of_words, 0, 262_144)
upward("quota", "quota 0 0", member("compartments", "quotas", "limit"), 0, 2_147_483_647)
limits("key", "key 0 0", key, 13, 15)
upward("args", "export 0 0", member("compartments", "exports", "args"), 0, 6)
upward("room", "export 0 0", member("compartments", "exports", "stack"), 0, 32_752)
upward("priority", "thread 0 0", member("threads", "priority"), 0, 15)
limits("stack", "thread 0 0", member("threads", "stack"), 256, 32_752, 16)
limits("frames", "thread 0 0", member("threads", "frames"), 1, 96)

# ---- lists

COMPARTMENT = {"code": {"words": []}}
THREAD = {"entry": "app.main", "priority": 1, "stack": 256, "frames": 1}


def named(kind, members):
    return lambda number: dict(members, name=f"{kind}{number}")


def device(number):
    return {"name": f"d{number}", "kind": "gpio", "base": 0x20000000 + 16 * number}


def service(number):
    return {"as": f"i{number}", "service": "yield"}


def digit(number):
    return {"as": f"i{number}", "library": "hex.digit"}


upward("devices", "firmware 0 0", filled("devices", of=device), 1, 16)
upward("objects", "firmware 0 0", filled("shared", of=named("s", {"size": 16})), 1, 64)
upward("seals", "firmware 0 0", filled("sealed", of=named("s", {"type": 13, "bytes": "00"})), 1, 64)
upward("compartments", "firmware 0 0", filled("compartments", of=named("c", COMPARTMENT)), 1, 64)
upward("libraries", "firmware 0 0", filled("libraries", of=named("l", COMPARTMENT)), 1, 32)
upward("threads", "firmware 0 0", filled("threads", of=named("u", THREAD)), 1, 16)
upward("threads_2", "firmware 0 0", filled("threads", of=named("u", THREAD), version=2), 1, 64)
upward("imports", "compartment 0 0", filled("compartments", "imports", of=service), 5, 128)
upward("quotas", "compartment 0 0", filled("compartments", "quotas", of=named("q", {"limit": 1})), 1, 16)
upward("keys", "compartment 0 0", filled("compartments", "keys", of=lambda number: 13 + number), 1, 3)
upward("exports", "compartment 0 0", filled("compartments", "exports", of=named("x", {"at": 0})), 1, 64)
upward("limports", "library 0 0", filled("libraries", "imports", of=digit), 1, 128)
upward("lexports", "library 0 0", filled("libraries", "exports", of=named("x", {"at": "digit"})), 1, 64)

# ---- names: of a name as many characters as of a file's name, which counts characters and not bytes

for length, wanted in ((1, LAWFUL), (32, LAWFUL), (33, "refused 4 description F4 firmware 0 0\n")):
    described("name", lambda firmware, number: firmware.update(firmware="n" * number), length, wanted)
for letter in "n", "\N{LATIN SMALL LETTER E WITH ACUTE}", "\N{GRINNING FACE}":
    for length in 1, 255, 256:
        lawful = length < 256
        described(f"file_{len(letter.encode())}",
                  lambda firmware, number: firmware["libraries"][0]["code"].update(file=letter * number), length,
                  f"refused 2 read {letter * length}\n" if lawful else "refused 4 description F6 library 0 0\n")

# ---- parts with one fault each: that of the part which is walked first is told

both = json.loads(WHOLE)
both["shared"][0]["size"], both["sealed"][0]["type"] = 0, 12
case("limit_shared_before_sealed", ["audit", "{}"], json.dumps(both), "refused 4 description F6 shared 0 0\n")
for names, part in ((("sealed", "compartments"), "sealed 0 0"), (("devices", "shared"), "device 0 0"),
                    (("compartments", "libraries"), "compartment 0 0"), (("libraries", "threads"), "library 0 0")):
    both = json.loads(WHOLE)
    for name in names:
        both[name][0]["unlisted"] = 0
    case("limit_" + "_before_".join(names), ["audit", "{}"], json.dumps(both), f"refused 4 description F3 {part}\n")
for names, part in ((("imports", "quotas"), "import 0 0"), (("quotas", "exports"), "quota 0 0")):
    both = json.loads(WHOLE)
    for name in names:
        both["compartments"][0][name][0]["unlisted"] = 0
    case("limit_" + "_before_".join(names), ["audit", "{}"], json.dumps(both), f"refused 4 description F3 {part}\n")
both = json.loads(WHOLE)
both["compartments"][0]["keys"], both["compartments"][0]["exports"][0]["args"] = [16], 7
case("limit_keys_before_exports", ["audit", "{}"], json.dumps(both), "refused 4 description F6 key 0 0\n")
both = json.loads(WHOLE)
both["libraries"][0]["imports"][0]["unlisted"] = both["libraries"][0]["exports"][0]["unlisted"] = 0
case("limit_limports_before_lexports", ["audit", "{}"], json.dumps(both), "refused 4 description F3 limport 0 0\n")

# ---- files: as large as one may be, and a byte more, as each file that a command reads

MOST = 16_777_216
TINY = sample("tiny")
SMALL = json.dumps(TINY).encode()
FULL = stored_file("full.json", bytes(MOST))
LARGE = stored_file("large.json", bytes(MOST + 1))
SOURCED = copy.deepcopy(TINY)
SOURCED["compartments"][0]["code"] = {"file": LARGE}

case("limit_file", ["audit", FULL], "", "refused 4 description F1 firmware 0 0\n")
case("limit_file_image", ["runimage", FULL, "100"], "", "refused 7 image I1 0\n")
for name, words, data in (
        ("description", ["audit", LARGE], ""), ("run", ["run", LARGE, "100"], ""),
        ("source", ["image", "{}"], json.dumps(SOURCED)), ("image", ["runimage", LARGE, "100"], ""),
        ("upgrade", ["upgrade", LARGE], ""), ("script", ["run", "{}", "100", LARGE], SMALL),
        ("image_script", ["runimage", "{}", "100", LARGE], image(TINY)), ("policy", ["check", "{}", LARGE], SMALL),
        ("why", ["why", LARGE, "app", "app"], "")):
    case("limit_file_large_" + name, words, data, f"refused 3 large {LARGE}\n")
