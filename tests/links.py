#!/usr/bin/env python3
"""Worked rows of links: what samples, and samples altered, are linked to, or the first fault.

    links.py OUT     writes the cases that cases.py tells of

The lines were worked out by hand from docs/use/description.md and assembler.md. The images of the samples as they are
were put together by hand too, from docs/use alone: the places, the numbers of entries and the rows, and the words of
statements by the few lines below; model/linker.py makes the same. It alone makes those of samples altered.
"""
import json

from cases import case, image, images as r, sample
from firmwares import APP, DRIVER, HEX, board, large, sourced

TINY = sample("tiny")
MAIN = "main: cimport ct0, uart\nli a0, 65\ncsw a0, 0(ct0)\ncret\n"
RA, T0, T1, T2, S0, A0, A1 = 1, 5, 6, 7, 8, 10, 11


# ---- words of statements

def immediate(opcode, funct3, rd, rs1, n):
    return (n & 0xfff) << 20 | rs1 << 15 | funct3 << 12 | rd << 7 | opcode


def addi(rd, rs1, n):
    return [immediate(0x13, 0, rd, rs1, n)]


def cjalr(rd, rs1):
    return [immediate(0x67, 0, rd, rs1, 0)]


def cret():
    return cjalr(0, RA)


def cmove(rd, rs1):
    return [0x7f << 25 | 0x0a << 20 | rs1 << 15 | rd << 7 | 0x5b]


def csb(rs2, rs1):
    """A store at no offset."""
    return [rs2 << 20 | rs1 << 15 | 0x23]


def cimport(rd, slot):
    """A slot, that many slots and words before the statement; less than 2,048 bytes."""
    slots, index, words = slot
    return [0x17 | rd << 7, immediate(0x03, 3, rd, rd, 8 * index - 8 * slots - 4 * words)]


def text_of(words):
    return b"".join(r.number(word) for word in words)


# ---- images by hand

def app_text():
    words = cmove(S0, RA)
    words += cimport(A0, (5, 4, len(words)))
    words += addi(A1, 0, 24)
    words += cimport(T2, (5, 3, len(words)))
    words += cjalr(RA, T2)
    words += addi(A0, 0, 7)
    words += cimport(T2, (5, 1, len(words)))
    words += cjalr(RA, T2)
    words += cimport(T1, (5, 2, len(words)))
    words += cimport(T2, (5, 0, len(words)))
    words += cjalr(RA, T2)
    return text_of(words + cmove(RA, S0) + cret())


def board_by_hand():
    app = r.owner(True, "app", 0x80000000, 112, [
        r.SWITCH, (r.import_row(6, 43, 0, 0), "digit"), (r.import_row(5, 50, 1, 0), "put"),
        (r.import_row(1, 40, 6), "allocate"), (r.import_row(7, 50, 64), "q")],
        [(r.export_row(0, 0, 6, 3, 1, 8), "main")], app_text(), 0x80000070, 0x80000090, 16)
    driver = r.owner(True, "driver", 0x800000a0, 32, [r.SWITCH, (r.import_row(2, 49, 0), "uart")],
                     [(r.export_row(0, 0, 1, 3, 2, 13), "put")], text_of(cimport(T0, (2, 1, 0)) + csb(A0, T0) + cret()),
                     0x800000c0, 0x800000e0, 16)
    hexes = r.owner(False, "hex", 0x800000f0, 16, [], [(r.export_row(0, 0, 0, 1, 1, 15), "digit")],
                    text_of(addi(A0, A0, 48) + cret()))
    return r.image(1, 20, 0x80000000, 4096, 0x80000300, 0x80000550, 64, "board", [("uart0", 1, 0x10000000)], [], [],
                   [app, driver], [hexes], [("t", 0x80000100, 256, 0, 0, 1, 2), ("u", 0x80000200, 256, 0, 0, 1, 2)])


def large_by_hand():
    one = r.owner(True, "one", 0x80000000, 96, [
        r.SWITCH,
        (r.import_row(1, 40, 6), "allocate"),
        (r.import_row(2, 51, 1), "pins"),
        (r.import_row(3, 59, 0), "box"),
        (r.import_row(4, 51, 0), "secret"),
        (r.import_row(5, 50, 1, 0), "serve"),
        (r.import_row(6, 43, 1, 0), "twice"),
        (r.import_row(7, 50, 64), "memory"),
        (r.import_row(8, 35, 13), "key13"),
    ], [(r.export_row(0, 256, 2, 3, 2, 12), "main"), (r.export_row(8, 0, 6, 2, 1, 13), "handler")],
        text_of(cimport(T0, (9, 3, 0)) + addi(A0, 0, 65) + cret()), 0x80000060, 0x80000090, 32, b"hello")
    two = r.owner(True, "two", 0x800000b0, 16, [r.SWITCH], [(r.export_row(4, 512, 0, 3, 1, 17), "serve")],
                  bytes.fromhex("1300000067800000"), 0x800000c0, 0x800000e0, 16)
    base = r.owner(False, "base", 0x800000f0, 16, [], [(r.export_row(0, 0, 0, 1, 1, 19), "id")],
                   bytes.fromhex("67800000"))
    lib = r.owner(False, "lib", 0x80000100, 32, [(r.import_row(6, 43, 0, 0), "id")],
                  [(r.export_row(0, 0, 0, 2, 1, 22), "twice")], text_of(cimport(T2, (1, 0, 0)) + cjalr(0, T2)))
    return r.image(2, 1000, 0x80000000, 8192, 0x80000450, 0x800006e0, 32, "large",
                   [("uart0", 1, 0x10000000), ("pins", 3, 0x10000010)], [("box", 0x80000120, 32)],
                   [("secret", 0x80000140, 16, 14, b"abcdef")], [one, two], [base, lib],
                   [("t", 0x80000150, 256, 0, 0, 0, 4), ("u", 0x80000250, 512, 1, 0, 15, 1)])


# ---- samples as they are

def small(text="", exports=({"name": "main", "at": "main"},), size=4096):
    """The smallest sample, by a source or, where there is none, by its words; its exports; its bytes of RAM."""
    app = dict(TINY["compartments"][0], exports=list(exports), **({"code": {}} if text else {}))
    return sourced(dict(TINY, compartments=[app], ram=dict(TINY["ram"], size=size)), [text] if text else [])


def linked(name, firmware, data=None):
    """A description, and the image that it is linked to."""
    made = image(firmware)
    assert data in (None, made), name
    case("link_" + name, ["image", "{}"], json.dumps(firmware), made)
    return made


assert image(TINY) == r.tiny()
linked("tiny_by_a_source", small(MAIN), r.tiny())
linked("board", board(), board_by_hand())
linked("large", large(), large_by_hand())

# ---- samples altered, and what they are linked to: how many bytes, and the heap's base

for name, firmware, length, heap in (
        ("words_of_li", small("main: li a0, 4096\nli a0, 4294967295\n"), 404, 0x80000280),
        ("a_later_label", small("cret\nmain: cret\n"), 400, 0x80000280),
        ("initial_bytes", small("main: cret\n.data\n.byte 7\n"), 400, 0x80000280),
        ("no_heap", board(size=1360), 1000, 0x80000550)):
    data = linked(name, firmware)
    assert (len(data), r.read(data).heap) == (length, heap), (name, len(data), hex(r.read(data).heap))
    if name == "words_of_li":
        assert r.read(data).owners[0].text == text_of([0x00001537, 0x00050513, 0xfff00513])

# A description of the last version that names no rate has one of 64, where the image has the rate.
assert linked("rate_that_is_not_named", dict(TINY, version=2))[52:56] == r.number(64)

# ---- samples altered, and their first fault


def refused(wanted, *rows):
    for name, firmware in rows:
        case("link_" + name, ["image", "{}"], json.dumps(firmware), f"refused {wanted}\n")


def at(place):
    return [{"name": "main", "at": place}]


LOST, STRAY = "cret\n.data\n.byte 0\n", "digit: cret\n.data\n.byte 0\n"
THREE = at("main") + [{"name": "odd", "at": 6}, {"name": "none", "at": "none"}]
refused("6 link L1 app 0",
        ("a_number_of_two", small(exports=at(2))), ("the_end_of_the_text", small(exports=at(20))),
        ("a_place_before_too_little_ram", small(exports=at(2), size=640)),
        ("an_offset_past_32_bits", small(exports=at(4294967296))),
        ("an_offset_of_64_bits", small(exports=at(18446744073709551612))),
        ("no_such_label", small("start: cret\n")), ("a_label_of_data", small("cret\n.data\nmain: .word 0\n")),
        ("a_label_at_the_end", small("cret\nmain:\n")), ("a_label_of_no_bytes", small("main:\n")),
        ("an_export_before_a_line_of_a_later_owner", board("cret\n", "frob a0\n", HEX)))
refused("6 link L1 app 1", ("the_second_of_three_exports", small(MAIN, THREE)))
refused("5 assembly A2 app 2", ("a_line_before_an_import", small("main: cimport ct0, nosuch\nfrob a0\n")))
refused("6 link L3 app 2", ("an_import_before_a_jump", small("main: j nowhere\ncimport ct0, nosuch\n")))
refused("5 assembly A6 app 1", ("a_jump_before_an_export", small("start: j nowhere\n")))
refused("6 link L2 1360 1344", ("too_little_ram", board(size=1344)))
refused("6 link L4 hex 0", ("initial_bytes_of_a_library", board(APP, DRIVER, STRAY)),
        ("initial_bytes_before_too_little_ram", board(APP, DRIVER, STRAY, size=256)))
refused("6 link L1 hex 0", ("an_export_before_initial_bytes", board(APP, DRIVER, LOST)),
        ("a_library_whose_labels_have_no_bytes", board(APP, DRIVER, "digit:\n")),
        ("an_export_of_the_last_owner_before_too_little_ram", board(APP, DRIVER, "cret\n", size=256)))
refused("5 assembly A6 hex 1",
        ("a_jump_before_initial_bytes", board(APP, DRIVER, "digit: j nowhere\n.data\n.byte 0\n")))
refused("6 link L3 hex 1", ("a_slot_of_a_compartment_in_a_library", board(APP, DRIVER, "digit: cimport ct0, uart\n")))
refused("5 assembly A6 driver 1",
        ("a_jump_before_an_import_of_a_later_owner", board(APP, "put: j nowhere\n", "cimport ct0, no\n")))
refused("6 link L1 driver 0",
        ("an_export_before_initial_bytes_of_a_later_owner", board(APP, "cret\n", STRAY)),
        ("an_export_of_a_later_owner_before_too_little_ram", board(APP, "cret\n", HEX, size=256)),
        ("sources_in_another_order", board(APP, HEX, DRIVER)))
refused("6 link L3 app 1", ("an_import_before_an_export_of_a_later_owner", board("cimport ct0, no\n", "cret\n", HEX)))
