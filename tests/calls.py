#!/usr/bin/env python3
"""Worked rows of calls between compartments: the switcher, returns and unwinds, with hostile callers and callees.

    calls.py OUT     writes the cases that cases.py tells of

Steps count from 1, one for each word of code and one for each native routine. `a` calls `b`, which may call `c`. In the
numbers of entries a compartment has its code, its globals, `switch`, its imports in order, its quotas and keys, and its
exports.
"""
import copy

from cases import (UART, called, calls, compartment, ended, export, gate, off, row, run, source, stored, thread,
                   trap)
from firmwares import small_board

BACK = ["cmove cra, cs1", "cret"]
PORT = "cimport cs0, uart"


def shows(*registers):
    """Stores each register at the port that cs0 holds."""
    return [f"csw {register}, 0(cs0)" for register in registers]


# ---- a call and its way back

board = small_board()
board["compartments"][0]["code"] = source("plain_app.s", ["main: cimport ct1, put", "cimport ct2, switch",
                                                          "cjalr cra, ct2", "clw a1, 0(ca0)"])
board["compartments"][1]["code"] = source("plain_driver.s", ["put: cmove ca0, cgp", "cret"])
board["libraries"][0]["code"] = source("plain_hex.s", ["digit: addi a0, a0, 48", "cret"])
run("plain_result", board, 100, "6 call t0 c0 e5 e12", "10 trap t0 c0 28 2 10",
    ended("finished", 10, calls=1, traps=1))

board = copy.deepcopy(board)
board["compartments"][0]["code"] = source("call_app.s", [
    "main: cmove cs0, cra", "li a0, 7", "cimport ct2, digit", "cjalr cra, ct2", "cimport ct1, put",
    "cimport ct2, switch", "cjalr cra, ct2", "cmove cra, cs0", "cret"])
board["compartments"][1]["code"] = source("call_driver.s", ["put: cimport ct0, uart", "csb a0, 0(ct0)", "cret"])
run("board_call", board, 100, "13 call t0 c0 e5 e12", "16 store t0 c1 e11 10000000 1 37",
    ended("finished", 21, ticks=1, calls=1, devices=1))

# c1 as it is, without a link: the callee's return goes on at the thread's own return.
row("call_without_a_link", [
    compartment("a", [gate("b.f")], ["main"], "main: cimport ct1, f", "cimport ct2, switch", "cjr ct2"),
    compartment("b", [], ["f"], "f: cret")],
    [thread("a.main")], 100, called(6, 0, 0, 4, 9), ended("finished", 9, calls=1))

# Of what a callee leaves in registers c10 and c11 alone come back; c2, c3, c8 and c9 are the caller's.
row("registers_left", [
    compartment("a", [gate("b.f"), UART], ["main"], "main: cmove cs1, cra", PORT, calls("f"),
                shows("ra", "sp", "gp", "tp", "t0", "t1", "t2", "a0", "a1", "a2", "a3", "a4", "a5"), BACK),
    compartment("b", [], ["f"], "f: li tp, 4", "li t0, 5", "li t1, 6", "li t2, 7", "li s0, 8", "li s1, 9", "li a0, 10",
                "li a1, 11", "li a2, 12", "li a3, 13", "li a4, 14", "li a5, 15", "li sp, 2", "li gp, 3", "cret")],
    [thread("a.main")], 100, called(9, 0, 0, 4, 10),
    *[stored(26 + n, 0, 0, 5, value) for n, value in enumerate(
        [0, 0x80000230, 0x800000a0, 0, 0, 0, 0, 10, 11, 0, 0, 0, 0])],
    ended("finished", 41, calls=1, devices=13))

# What it left on its stack is gone, a capability too.
row("stack_left", [
    compartment("a", [gate("b.f"), UART], ["main"], "main: cmove cs1, cra", PORT, calls("f"), "clw a2, -4(csp)",
                shows("a2"), "clc ca2, -16(csp)", "cgettag a3, ca2", shows("a3", "a2"), BACK),
    compartment("b", [], ["f"], "f: csw sp, -4(csp)", "csc cgp, -16(csp)", "cret")],
    [thread("a.main")], 100, called(9, 0, 0, 4, 10), *[stored(n, 0, 0, 5, 0) for n in (15, 18, 19)],
    ended("finished", 22, calls=1, devices=3))

# Two capabilities as results: tagged, the stack's too, where the export passes capabilities; else their words alone.
for passes, tag in (("data", 0), ("capabilities", 1)):
    row(f"results_{passes}", [
        compartment("a", [gate("b.f"), UART], ["main"], "main: cmove cs1, cra", PORT, calls("f"), "cgettag a2, ca0",
                    "csw a2, 0(cs0)", "cgettag a2, ca1", "csw a2, 0(cs0)", "csw a0, 0(cs0)", BACK),
        compartment("b", [], [export("f", passes=passes)], "f: cmove ca0, cgp", "cmove ca1, csp", "cret")],
        [thread("a.main")], 100, called(9, 0, 0, 4, 10), stored(15, 0, 0, 5, tag), stored(17, 0, 0, 5, tag),
        stored(18, 0, 0, 5, 0x800000d0), ended("finished", 21, calls=1, devices=3))

# Of six arguments the callee's export declares two; every other register but c1, c2 and c3 is zero on entry.
for passes, tag in (("data", 0), ("capabilities", 1)):
    row(f"arguments_{passes}", [
        compartment("a", [gate("b.f")], ["main"], "main: cmove cs1, cra", "cmove ca0, cgp", "li a1, 1", "li a2, 2",
                    "li a3, 3", "li a4, 4", "li a5, 5", "li s0, 8", "li tp, 4", "li t0, 5", calls("f"), BACK),
        compartment("b", [UART], [export("f", passes=passes, args=2)], "f: add tp, tp, t0", "add tp, tp, t1",
                    "add tp, tp, t2", "add tp, tp, s0", "add tp, tp, s1", "cimport cs0, uart", shows("tp"),
                    "cgettag tp, ca0", shows("tp", "a0", "a1", "a2", "a3", "a4", "a5"), "cret")],
        [thread("a.main")], 100, called(16, 0, 0, 4, 10), stored(24, 0, 1, 9, 0), stored(26, 0, 1, 9, tag),
        stored(27, 0, 1, 9, 0x80000080), stored(28, 0, 1, 9, 1), *[stored(n, 0, 1, 9, 0) for n in range(29, 33)],
        ended("finished", 37, calls=1, devices=8))

# ---- depth and room

# A trap in the third of three compartments: the second sees -1 and 0, its own word above sp, and zero below it; then
# it traps too, and the first sees the same.
row("three_deep", [
    compartment("a", [gate("b.g"), UART], ["main"], "main: cmove cs1, cra", calls("g"), "cimport cs0, uart",
                shows("a0", "a1"), "clw a2, -16(csp)", shows("a2"), BACK),
    compartment("b", [gate("c.h"), UART], ["g"], "g: cincaddrimm csp, csp, -16", "li a2, 90", "csw a2, 0(csp)",
                "csw a2, -8(csp)", calls("h"), "cimport cs0, uart", shows("a0", "a1"), "clw a2, -8(csp)", shows("a2"),
                "clw a2, 0(csp)", shows("a2"), "ecall"),
    compartment("c", [], ["h"], "h: csw sp, -4(csp)", "ebreak")],
    [thread("a.main", frames=3)], 100, called(7, 0, 0, 4, 12), called(17, 0, 1, 10, 16), trap(19, 0, 2, 3),
    stored(22, 0, 1, 11, -1), stored(23, 0, 1, 11, 0), stored(25, 0, 1, 11, 0), stored(27, 0, 1, 11, 90),
    trap(28, 0, 1, 11), stored(31, 0, 0, 5, -1), stored(32, 0, 0, 5, 0), stored(34, 0, 0, 5, 0),
    ended("finished", 37, calls=2, devices=7, traps=2))

# A call at depth 2 of 2: -12, and neither the stack nor a2 is touched.
row("too_deep", [
    compartment("a", [gate("b.f"), UART], ["main"], "main: cmove cs1, cra", calls("f"), "cimport cs0, uart",
                shows("a0"), BACK),
    compartment("b", [gate("b.f"), UART], ["f"], "f: cmove cs1, cra", "cincaddrimm csp, csp, -16", "li a2, 90",
                "csw a2, -8(csp)", calls("f"), "cimport cs0, uart", shows("a0", "a1", "a2"), "clw a3, -8(csp)",
                shows("a3"), BACK)],
    [thread("a.main")], 100, called(7, 0, 0, 4, 12), stored(20, 0, 1, 11, -12), stored(21, 0, 1, 11, 0),
    stored(22, 0, 1, 11, 90), stored(24, 0, 1, 11, 90), stored(30, 0, 0, 5, -12),
    ended("finished", 33, calls=1, devices=5))

# An export that asks for 512 bytes where 256 are left: -11.
row("no_stack", [
    compartment("a", [gate("b.f"), UART], ["main"], "main: cmove cs1, cra", calls("f"), "cimport cs0, uart",
                shows("a0", "a1"), BACK),
    compartment("b", [], [export("f", stack=512)], "f: cret")],
    [thread("a.main")], 100, stored(10, 0, 0, 5, -11), stored(11, 0, 0, 5, 0), ended("finished", 14, devices=2))

# 257 of 256 bytes, 256 of 256; one byte lower the room is 240: 256 of it, 240 of it.
row("room", [
    compartment("a", [gate("b.f"), gate("b.g"), gate("b.h"), UART], ["main"], "main: cmove cs1, cra", PORT, calls("g"),
                shows("a0"), calls("f"), "cincaddrimm csp, csp, -1", calls("f"), shows("a0"), calls("h"), BACK),
    compartment("b", [], [export("f", stack=256), dict(export("g", stack=257), at="f"),
                          dict(export("h", stack=240), at="f")], "f: cret")],
    [thread("a.main")], 100, stored(10, 0, 0, 7, -11), called(16, 0, 0, 4, 12), stored(26, 0, 0, 7, -11),
    called(32, 0, 0, 6, 14), ended("finished", 37, calls=2, devices=2))

# No room at all: the callee's stack is empty, and its capability is there.
row("empty_stack", [
    compartment("a", [gate("b.f")], ["main"], "main: cmove cs1, cra", "cincaddrimm csp, csp, -256", calls("f"), BACK),
    compartment("b", [UART], ["f"], "f: cimport cs0, uart", "cgettag a0, csp", shows("a0"), "cgetlen a0, csp",
                shows("a0"), "csw a0, -4(csp)")],
    [thread("a.main")], 100, called(8, 0, 0, 4, 10), stored(12, 0, 1, 9, 1), stored(14, 0, 1, 9, 0),
    trap(15, 0, 1, 28, 1, 2), ended("finished", 18, calls=1, devices=2, traps=1))

# A thread of 96 frames calls its own entry until there are none left: -12, one more at each return. A tick before each
# seventh step puts the thread's registers away and takes them out again.
DEEP = 96
row("frames_96", [
    compartment("a", [gate("a.main"), UART], ["main"], "main: cmove cs1, cra", "cincaddrimm csp, csp, -16",
                calls("main"), "addi a0, a0, 1", "cimport cs0, uart", shows("a0"), BACK)],
    [thread("a.main", stack=2048, frames=DEEP)], 2000,
    *[called(8 * depth, 0, 0, 4, 6) for depth in range(1, DEEP)],
    *[stored(8 * DEEP + 4 + 7 * n, 0, 0, 5, n - 11) for n in range(DEEP)],
    ended("finished", 15 * DEEP, ticks=205, calls=DEEP - 1, devices=DEEP), quantum=7)

# The same depth, and each frame traps: one after another is unwound.
row("unwound_96", [
    compartment("a", [gate("a.main")], ["main"], "main: cmove cs1, cra", "cincaddrimm csp, csp, -16", calls("main"),
                "ecall")],
    [thread("a.main", stack=2048, frames=DEEP)], 2000,
    *[called(8 * depth, 0, 0, 4, 5) for depth in range(1, DEEP)],
    *[trap(8 * DEEP + n, 0, 0, 11) for n in range(1, DEEP + 1)],
    ended("finished", 9 * DEEP, ticks=123, calls=DEEP - 1, traps=DEEP), quantum=7)

# ---- what a callee sees of its caller

row("callers_stack", [
    compartment("a", [gate("b.f"), UART], ["main"], "main: cmove cs1, cra", "li a0, 77", "cincaddrimm csp, csp, -16",
                "csw a0, 0(csp)", "csw a0, -4(csp)", calls("f"), "clw a0, 0(csp)", "cimport cs0, uart", shows("a0"),
                BACK),
    compartment("b", [UART], ["f"], "f: cimport cs0, uart", "clw a0, -4(csp)", shows("a0"), "clw a0, 0(csp)")],
    [thread("a.main")], 100, called(11, 0, 0, 4, 11), stored(15, 0, 1, 10, 0), trap(16, 0, 1, 28, 1, 2),
    stored(20, 0, 0, 5, 77), ended("finished", 23, calls=1, devices=2, traps=1))

# The caller's capability reaches no further than 64 bytes, at an address further up: the callee's stack goes up to
# that address all the same.
row("narrowed_stack", [
    compartment("a", [gate("b.f")], ["main"], "main: cmove cs1, cra", "cincaddrimm csp, csp, -256",
                "csetboundsimm csp, csp, 64", "cincaddrimm csp, csp, 128", calls("f"), "clw a0, -4(csp)"),
    compartment("b", [UART], ["f"], "f: cimport cs0, uart", "li a0, 5", "csw a0, -4(csp)", "clw a1, -4(csp)",
                shows("a1"), "cret")],
    [thread("a.main")], 100, called(10, 0, 0, 4, 10), stored(16, 0, 1, 9, 5), trap(19, 0, 0, 28, 1, 2),
    ended("finished", 19, calls=1, devices=1, traps=1))

# A capability of the caller's port as an argument: used by the callee, by the caller's entry, or not a capability.
for passes, wanted in (
        ("capabilities", [stored(11, 0, 1, 5, 65), ended("finished", 16, calls=1, devices=1)]),
        ("data", [trap(11, 0, 1, 28, 2, 10), ended("finished", 14, calls=1, traps=1)])):
    row(f"lent_port_{passes}", [
        compartment("a", [gate("b.f"), UART], ["main"], "main: cmove cs1, cra", "cimport ca0, uart", calls("f"), BACK),
        compartment("b", [], [export("f", passes=passes)], "f: li a1, 65", "csw a1, 0(ca0)", "cret")],
        [thread("a.main")], 100, called(9, 0, 0, 4, 10), *wanted)

# A call import as an argument: the callee calls by it.
row("lent_call", [
    compartment("a", [gate("b.f"), gate("c.h")], ["main"], "main: cmove cs1, cra", "cimport ca0, h", calls("f"), BACK),
    compartment("b", [], ["f"], "f: cmove cs1, cra", "cmove ct1, ca0", "cimport ct2, switch", "cjalr cra, ct2", BACK),
    compartment("c", [], ["h"], "h: cret")],
    [thread("a.main", frames=3)], 100, called(9, 0, 0, 4, 10), called(15, 0, 1, 5, 14), ended("finished", 23, calls=2))

# ---- return sentries that outlive their frame

# The caller lends a link into its own code. The callee goes there: the caller's code runs in the callee's frame, and
# its way back is the callee's.
for passes, wanted in (
        ("capabilities", [stored(15, 0, 1, 5, 66), ended("finished", 21, calls=1, devices=1)]),
        ("data", [trap(11, 0, 1, 28, 2, 1), ended("finished", 14, calls=1, traps=1)])):
    row(f"lent_link_{passes}", [
        compartment("a", [gate("b.f"), UART], ["main"], "main: cmove cs1, cra", "jal ca0, over", "cimport ct0, uart",
                    "li a1, 66", "csw a1, 0(ct0)", "cmove cra, cs0", "cret", "over:", calls("f"), BACK),
        compartment("b", [], [export("f", passes=passes)], "f: cmove cs0, cra", "cmove cra, ca0", "cret")],
        [thread("a.main")], 100, called(8, 0, 0, 4, 10), *wanted)

# The callee keeps a link into its own code, and takes it in a later frame.
row("kept_link", [
    compartment("a", [gate("b.f"), gate("b.g")], ["main"], "main: cmove cs1, cra", calls("f"), calls("g"), BACK),
    compartment("b", [UART], ["f", "g"], "f: jal ct0, past", "cimport ct0, uart", "li a1, 67", "csw a1, 0(ct0)",
                "cmove cra, cs0", "cret", "past: csc ct0, 0(cgp)", "cret", "g: cmove cs0, cra", "clc cra, 0(cgp)",
                "cret")],
    [thread("a.main")], 100, called(7, 0, 0, 4, 11), called(17, 0, 0, 5, 12), stored(24, 0, 1, 10, 67),
    ended("finished", 30, calls=2, devices=1))

# The callee keeps its way back, and a second thread takes it in a call of its own: its own frame ends, no other.
row("kept_return", [
    compartment("a", [gate("b.f"), gate("b.g"), UART], ["one", "two"], "one: cmove cs1, cra", calls("f"), BACK,
                "two: cmove cs1, cra", calls("g"), "cimport cs0, uart", shows("a0"), BACK),
    compartment("b", [], ["f", "g"], "f: csc cra, 0(cgp)", "cret", "g: li a0, 9", "clc cra, 0(cgp)", "cret")],
    [thread("a.one"), thread("a.two", "u")], 100, called(7, 0, 0, 4, 12), called(20, 1, 0, 5, 13),
    stored(27, 1, 0, 6, 9), ended("finished", 30, calls=2, devices=1))

# A way back as a result: it ends the frame that takes it, the thread's first.
row("returned_return", [
    compartment("a", [gate("b.f")], ["main"], "main:", calls("f"), "cmove cra, ca0", "cret"),
    compartment("b", [], ["f"], "f: cmove ca0, cra", "cret")],
    [thread("a.main")], 100, called(6, 0, 0, 4, 9), ended("finished", 12, calls=1))

# ---- calls that fail a check

SELF = gate("a.main")
KEYED = {"quotas": [{"name": "q", "limit": 64}], "keys": [13]}
SWITCH = ["cimport ct2, switch", "cjalr cra, ct2"]
SECRET = {"as": "secret", "sealed": "secret"}


def refused(name, wanted, *text, **members):
    """A call that traps in the thread's first frame, of a compartment that may call itself."""
    frames, data = members.pop("frames", 2), members.pop("data", [])
    row(name, [compartment("a", [SELF, SECRET], ["main"], "main:", *text, *data, **KEYED)],
        [thread("a.main", frames=frames)], 100, trap(wanted[0], 0, 0, *wanted[1:]),
        ended("finished", wanted[0], traps=1), sealed=[{"name": "secret", "type": 13, "bytes": "00"}], **members)


refused("no_export", (4, 28, 2, 6), SWITCH)
refused("cleared_export", (7, 28, 2, 6), "cimport ct1, main", "ccleartag ct1, ct1", SWITCH)
refused("moved_export", (7, 28, 2, 6), "cimport ct1, main", "cincaddrimm ct1, ct1, 16", SWITCH)
# The bytes of the call import, from the globals: of the export's row at 0x80000050, rights GL LD, type 9.
refused("forged_export", (5, 28, 2, 6), "clc ct1, 0(cgp)", SWITCH,
        data=[".data", ".word 0x80000050", ".word 0x6440A060"])
refused("quota_as_export", (6, 28, 3, 6), "cimport ct1, q", SWITCH)
refused("sealed_object_as_export", (6, 28, 3, 6), "cimport ct1, secret", SWITCH)
refused("key_as_export", (6, 28, 3, 6), "cimport ct1, key13", SWITCH)
refused("globals_as_export", (5, 28, 3, 6), "cmove ct1, cgp", SWITCH)
refused("service_as_export", (5, 28, 3, 6), "cimport ct2, switch", "cmove ct1, ct2", "cjalr cra, ct2")
refused("sealed_by_own_key", (8, 28, 3, 6), "cimport ct0, key13", "cmove ct1, cgp", "cseal ct1, ct1, ct0", SWITCH)
refused("sealed_as_an_export", (9, 28, 2, 6), "cimport ct0, key13", "li a0, 9", "csetaddr ct0, ct0, ca0",
        "cseal ct1, cgp, ct0", SWITCH)
# Checks come before the depth: at the last frame too.
refused("checked_at_the_last_frame", (4, 28, 2, 6), SWITCH, frames=1)

refused("link_without_a_tag", (7, 28, 2, 1), "cimport ct1, main", "ccleartag cra, cra", "cimport ct2, switch",
        "cjr ct2")
refused("link_unsealed", (7, 28, 3, 1), "cimport ct1, main", "cmove cra, cgp", "cimport ct2, switch", "cjr ct2")
refused("link_forward", (7, 28, 3, 1), "cimport ct1, main", "cimport ct2, switch", "cmove cra, ct2", "cjr ct2")

refused("stack_without_a_tag", (7, 28, 2, 2), "li sp, 0", "cimport ct1, main", SWITCH)
refused("stack_below_its_base", (7, 28, 2, 2), "cincaddrimm csp, csp, -272", "cimport ct1, main", SWITCH)
refused("stack_sealed", (8, 28, 3, 2), "cimport csp, main", "cimport ct1, main", SWITCH)
refused("stack_of_globals", (7, 28, 19, 2), "cmove csp, cgp", "cimport ct1, main", SWITCH)
refused("stack_without_local_stores", (8, 28, 19, 2), "li a0, -17", "candperm csp, csp, ca0", "cimport ct1, main",
        SWITCH)
refused("stack_of_another_base", (8, 28, 1, 2), "cincaddrimm csp, csp, -128", "csetboundsimm csp, csp, 64",
        "cimport ct1, main", SWITCH)
refused("stack_above_its_top", (7, 28, 1, 2), "cincaddrimm csp, csp, 16", "cimport ct1, main", SWITCH)

# The callee's stack ends at 192 of 256 bytes; an address above that is its caller's.
row("stack_of_the_caller", [
    compartment("a", [gate("b.f"), UART], ["main"], "main: cmove cs1, cra", "cincaddrimm csp, csp, -64", calls("f"),
                "cimport cs0, uart", shows("a0", "a1"), BACK),
    compartment("b", [gate("b.f")], ["f"], "f: cincaddrimm csp, csp, 16", calls("f"))],
    [thread("a.main", frames=3)], 100, called(8, 0, 0, 4, 11), trap(15, 0, 1, 28, 1, 2), stored(18, 0, 0, 5, -1),
    stored(19, 0, 0, 5, 0), ended("finished", 22, calls=1, devices=2, traps=1))

# A stack loses its tag on the way through the globals: another thread can't call on it.
row("stack_of_another_thread", [
    compartment("a", [gate("a.put")], ["put", "take"], "put: csc csp, 0(cgp)", "cret", "take: clc csp, 0(cgp)",
                calls("put"))],
    [thread("a.put"), thread("a.take", "u")], 100, trap(10, 1, 0, 28, 2, 2), ended("finished", 10, traps=1))

# ---- interrupts

LATER = ["other: li a0, 1", "cimport ct0, uart", "csw a0, 0(ct0)", "cret"]

# A disabled export: the tick before step 10 stops the thread once interrupts are on, which they are by the jump of
# step 10 through the switcher's return sentry.
row("disabled_callee", [
    compartment("a", [gate("b.f"), UART], ["main", "other"], "main: cmove cs1, cra", calls("f"), BACK, LATER),
    compartment("b", [], [export("f", posture="disabled")], "f: nop", "nop", "cret")],
    [thread("a.main"), thread("a.other", "u")], 100, called(7, 0, 0, 4, 11), off(7, 0, 1, 11), stored(14, 1, 0, 5, 1),
    ended("finished", 20, ticks=2, calls=1, devices=1), quantum=9)

# A caller with interrupts off: on in the callee, off again at its return, by the same export.
row("disabled_caller", [
    compartment("a", [gate("b.f")], [export("main", posture="disabled")], "main: cmove cs1, cra", calls("f"), BACK),
    compartment("b", [], ["f"], "f: cret")],
    [thread("a.main")], 100, off(1, 0, 0, 5), called(7, 0, 0, 4, 9), off(9, 0, 0, 5), ended("finished", 12, calls=1))

# The callee traps with interrupts off: they are on again in its caller.
row("disabled_callee_traps", [
    compartment("a", [gate("b.f"), UART], ["main", "other"], "main: cmove cs1, cra", calls("f"), BACK, LATER),
    compartment("b", [], [export("f", posture="disabled")], "f: nop", "ecall")],
    [thread("a.main"), thread("a.other", "u")], 100, called(7, 0, 0, 4, 11), off(7, 0, 1, 11), trap(9, 0, 1, 11),
    stored(13, 1, 0, 5, 1), ended("finished", 18, ticks=2, calls=1, devices=1, traps=1), quantum=8)
