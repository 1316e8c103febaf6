#!/usr/bin/env python3
"""Worked rows of images: two of them altered, cut and lengthened, and what the program answers to each.

    images.py OUT     writes the cases that cases.py tells of

The judge of model/images.py, written from docs/use/image.md alone, says of altered bytes what they are refused for, or
that they are an image, whose upgrade it spells byte for byte. Changes of a byte are five: its lowest bit, its highest,
one more, 0 and 255; those that leave it as it is, or do what an earlier one does, are left out. Of the smallest image
each byte takes each change, of the large one, which has a part of every kind, each takes one of them in turn.
"""
from cases import case, image, images, sample

TINY = sample("tiny")
SMALL, LARGE = images.tiny(), images.large()
UPGRADED = images.upgraded(SMALL)


def refusal(told):
    """The line of a fault by its number and place."""
    return "refused 7 image I%s\n" % told


# ---- answers worked out by hand, which the judge must give too

def altered(name, data, wanted):
    assert images.answer(data) == wanted, (name, images.answer(data))
    case("altered_" + name, ["runimage", "{}", "100"], data, refusal(wanted))
    case(f"altered_{name}_upgrade", ["upgrade", "{}"], data, refusal(wanted))


for size in (8, 100, 411):
    altered(f"cut_{size}", SMALL[:size], f"2 {size}")
for size in (0, 7):
    altered(f"cut_{size}", SMALL[:size], "1 0")
altered("longer", SMALL + b"\0", "2 413")
altered("begin", b"\0" + SMALL[1:], "1 0")
for name, data, at, value, wanted in (
        ("version", SMALL, 4, 9, "1 0"), ("quantum", SMALL, 32, 0, "3 32"), ("heap", SMALL, 48, 0x80000280, "4 48"),
        ("globals", SMALL, 172, 0x80000030, "4 172"), ("service", SMALL, 196, 2, "5 192"),
        ("device", SMALL, 244, 1, "5 240"), ("rights", SMALL, 240, 0x2802, "6 240"),
        ("offset", SMALL, 288, 20, "3 288"), ("entry", SMALL, 300, 4, "3 300"),
        ("compartment", SMALL, 396, 1, "5 396"), ("export", SMALL, 400, 1, "5 396"),
        ("no_sweep", UPGRADED, 52, 0, "3 52"), ("upgraded_globals", UPGRADED, 176, 0x80000030, "4 176")):
    altered(name, data[:at] + images.number(value) + data[at + 4:], wanted)
altered("byte_order_mark", b"\xef\xbb\xbf" + SMALL, "1 0")


def with_numbers(data, *pairs):
    """The data with other numbers at these places."""
    for at, value in pairs:
        data = data[:at] + images.number(value) + data[at + 4:]
    return data


# Two faults of one number: that of the part which is walked first, owners and their slots before threads.
altered("slot_before_thread", with_numbers(SMALL, (244, 1), (396, 1)), "5 240")
altered("export_before_thread", with_numbers(SMALL, (288, 20), (404, 16)), "3 288")


# ---- lengths and counts on both sides of their limits, by hand

def lawful(name, data):
    """An image, which its upgrade shows."""
    assert images.answer(data) == "ok", (name, images.answer(data))
    case(f"lawful_{name}", ["upgrade", "{}"], data, images.upgraded(data))


def of_threads(version, count):
    """The smallest image with so many threads in more RAM."""
    thread = TINY["threads"][0]
    names = [dict(thread, name=f"t{n}") for n in range(count)]
    data = image(dict(TINY, version=2, ram=dict(TINY["ram"], size=65536), threads=names[:64]))
    if count > 64:
        data = with_numbers(data + data[-56:], (28, count))
    return data if version == 2 else with_numbers(data[:52] + data[56:], (4, 1))


# The first version has at most 16 threads, the second 64. (The 65th is the 64th again, whose faults come later.)
lawful("16_threads", of_threads(1, 16))
altered("17_threads", of_threads(1, 17), "3 28")
lawful("17_threads_of_version_2", of_threads(2, 17))
lawful("64_threads_of_version_2", of_threads(2, 64))
altered("65_threads_of_version_2", of_threads(2, 65), "3 28")


def of_sealed(count):
    """The large image whose sealed object, of 16 bytes at 208, begins with so many."""
    return LARGE[:252] + images.number(count) + images.padded(b"s" * count) + LARGE[264:]


# A sealed object has at least one initial byte, and no more than its length.
altered("sealed_0", of_sealed(0), "3 252")
lawful("sealed_1", of_sealed(1))
lawful("sealed_16", of_sealed(16))
altered("sealed_17", of_sealed(17), "3 252")


def with_library(row, title):
    """The large image whose second library has this slot."""
    slot = LARGE.rindex(images.import_row(6, 43, 0, 0) + images.name("id"))
    return slot, LARGE[:slot] + row + images.name(title) + LARGE[slot + 48:]


# A key's slot has the key's name, in a library too, where no key may be.
for name, title, fault, offset in (("named_otherwise", "id", 3, 16), ("of_a_library", "key13", 6, 0)):
    slot, data = with_library(images.import_row(8, 35, 13), title)
    altered("key_" + name, data, f"{fault} {slot + offset}")

# A region of no bytes lies within another, and meets none.
empty = images.owner(False, "empty", 0x80000010, 0, [], [], b"")
lawful("empty_region", with_numbers(LARGE[:-112] + empty + LARGE[-112:], (24, 3)))


# ---- answers of the judge

def upgraded(name, data):
    told = images.answer(data)
    case("image_" + name, ["upgrade", "{}"], data, images.upgraded(data) if told == "ok" else refusal(told))


def changes(byte):
    """The values that a byte is changed to."""
    return sorted({byte ^ 1, byte ^ 128, (byte + 1) % 256, 0, 255} - {byte})


def put(data, at, value):
    return data[:at] + bytes([value]) + data[at + 1:]


for at, byte in enumerate(SMALL):
    for value in changes(byte):
        upgraded(f"small_{at}_{value}", put(SMALL, at, value))
for at, byte in enumerate(LARGE):
    values = changes(byte)
    value = values[at % len(values)]
    upgraded(f"large_{at}_{value}", put(LARGE, at, value))
for name, data, step in (("small", SMALL, 3), ("large", LARGE, 5)):
    for size in range(0, len(data), step):
        upgraded(f"{name}_cut_{size}", data[:size])
upgraded("large", LARGE)
upgraded("large_longer", LARGE + b"\0")
