#!/usr/bin/env python3
"""Worked rows of error handlers: where a trap enters one, what it finds, and how its frame ends.

    handlers.py OUT     writes the cases that cases.py tells of

Steps count from 1; a trap and the entry of a handler are one step. Each compartment imports the serial port first, so
in the numbers of entries it has its code, its globals, `switch`, `uart`, its other imports, its quotas, and its exports.
A thread's stack has 1,024 bytes and room for four frames, where a row doesn't say otherwise.
"""
import copy

from cases import (QUOTA, allocated, allocates, called, calls, case, compartment, ended, export, gate, image, lines,
                   modelled, off, report, row, run, sample, served, service, source, stored, thread, trap)

UART = {"as": "uart", "device": "uart0", "rights": "RW"}
PORT = "cimport ct0, uart"
KEEP, BACK = "cmove cs0, cra", ["cmove cra, cs0", "cret"]
HANDLER = export("handler", at="h")
TO_B = dict(gate("b.main"), **{"as": "next"})
SHOWS_SP = [f"h: {PORT}", "csw sp, 0(ct0)", "cret"]


def shows(*registers):
    """Stores each register at the port that ct0 holds."""
    return [f"csw {register}, 0(ct0)" for register in registers]


def caller(*end):
    """A compartment that calls b and stores what comes back; it has no handler."""
    return compartment("a", [UART, TO_B], ["main"], f"main: {KEEP}", calls("next"), PORT, shows("a0", "a1"),
                       list(end) or BACK)


def asker():
    """The same, which stores c10 alone."""
    return compartment("a", [UART, TO_B], ["main"], f"main: {KEEP}", calls("next"), PORT, shows("a0"), BACK)


def handles(name, *text, imports=(), main="main", handler=HANDLER):
    """A compartment with an error handler."""
    return compartment(name, [UART, *imports], [main, handler], *text)


def one(frames=4, name="t0"):
    return thread("a.main", name, stack=1024, frames=frames)


# ---- what it answers

for name, c10, c11, answer in (("of_1", 1, 9, 9), ("of_0", 0, 9, -1), ("of_2", 2, 9, -1)):
    row(f"answer_{name}", [
        caller(), handles("b", "main: ebreak", f"h: li a0, {c10}", f"li a1, {c11}", "cret")],
        [one()], 300, called(7, 0, 0, 5, 11), trap(8, 0, 1, 3), stored(15, 0, 0, 4, answer), stored(16, 0, 0, 4, 0),
        ended("finished", 19, calls=1, devices=2, traps=1))

# Of what is no number the address counts, and it comes back as a number.
row("answer_that_is_a_capability", [
    caller("clw a1, 0(ca0)"), handles("b", "main: ebreak", "h: li a0, 1", "cmove ca1, cgp", "cret")],
    [one()], 300, called(7, 0, 0, 5, 11), trap(8, 0, 1, 3), stored(15, 0, 0, 4, 0x800000d0), stored(16, 0, 0, 4, 0),
    trap(17, 0, 0, 28, 2, 10), ended("finished", 17, calls=1, devices=2, traps=2))

# So it is whatever the frame's own export passes.
row("answer_of_a_plain_export", [
    caller(), handles("b", "main: ebreak", "h: li a0, 1", "li a1, 9", "cret", main=export("main", passes="data"))],
    [one()], 300, called(7, 0, 0, 5, 11), trap(8, 0, 1, 3), stored(15, 0, 0, 4, 9), stored(16, 0, 0, 4, 0),
    ended("finished", 19, calls=1, devices=2, traps=1))

# A handler that traps is unwound.
row("handler_that_traps", [
    caller(), handles("b", "main: ebreak", "h: clw a1, 0(cs0)")],
    [one()], 300, called(7, 0, 0, 5, 11), trap(8, 0, 1, 3), trap(9, 0, 1, 28, 2, 8), stored(12, 0, 0, 4, -1),
    stored(13, 0, 0, 4, 0), ended("finished", 16, calls=1, devices=2, traps=2))

row("handler_without_end", [handles("a", "main: ebreak", "h: j h")], [one()], 12, trap(1, 0, 0, 3),
    ended("limit", 12, traps=1))

# ---- what it finds

# c0 to c15 before the trap, pcc, and the trap; c4 to c15 held their own numbers.
NAMES = ["tp", "t0", "t1", "t2", "s0", "s1", "a0", "a1", "a2", "a3", "a4", "a5"]
SET = [f"li {register}, {n}" for n, register in enumerate(NAMES, 4)]
row("record", [
    handles("a", "main: " + SET[0], SET[1:], "clw a0, 3(ca1)", f"h: {PORT}",
            [line for n in range(20) for line in (f"clw a3, {4 * n}(csp)", *shows("a3"))], "cret")],
    [one()], 300, trap(13, 0, 0, 28, 2, 11),
    *[stored(17 + 2 * n, 0, 0, 4, value) for n, value in enumerate(
        [0, 0x10010, 0x80000530, 0x80000120, *range(4, 16), 0x80000040, 28, 2, 11])],
    ended("finished", 57, devices=20, traps=1))

row("registers_of_a_handler", [
    handles("a", "main: li a3, 13", "ecall", f"h: {PORT}", shows("a0", "a1", "a2", "a3", "sp"),
            [line for register in ("cra", "cgp", "csp", "ctp") for line in (f"cgettag a4, {register}", *shows("a4"))],
            "cret")],
    [one()], 300, trap(2, 0, 0, 11), stored(5, 0, 0, 4, 11), *[stored(n, 0, 0, 4, 0) for n in (6, 7, 8)],
    stored(9, 0, 0, 4, 0x80000450), *[stored(n, 0, 0, 4, 1) for n in (11, 13, 15)], stored(17, 0, 0, 4, 0),
    ended("finished", 19, devices=9, traps=1))

# A tag under the record is gone; one beside it stays.
row("tag_under_the_record", [
    handles("a", "main: csc cgp, -16(csp)", "ebreak", f"h: {PORT}", "clc ca3, 64(csp)", "cgettag a4, ca3", shows("a4"),
            "clc ca3, 72(csp)", "cgettag a4, ca3", shows("a4"), "cret")],
    [one()], 300, trap(2, 0, 0, 3), stored(7, 0, 0, 4, 0), stored(10, 0, 0, 4, 0),
    ended("finished", 12, devices=2, traps=1))
row("tag_beside_the_record", [
    handles("a", "main: csc cgp, -8(csp)", "cincaddrimm csp, csp, -16", "ebreak", f"h: {PORT}", "clc ca3, 88(csp)",
            "cgettag a4, ca3", shows("a4"), "cret")],
    [one()], 300, trap(3, 0, 0, 3), stored(8, 0, 0, 4, 1), ended("finished", 10, devices=1, traps=1))

# ---- where there is room

for room, entered in ((80, True), (95, True), (79, False)):
    told = [trap(4, 0, 0, 3), *([stored(7, 0, 0, 4, 0x80000070)] if entered else [])]
    row(f"room_of_{room}", [
        handles("a", "main: cgetbase a0, csp", f"addi a0, a0, {room}", "csetaddr csp, csp, a0", "ebreak", SHOWS_SP)],
        [one()], 300, *told, ended("finished", 9 if entered else 4, devices=int(entered), traps=1))

row("odd_stack_pointer", [handles("a", "main: cincaddrimm csp, csp, -3", "ebreak", SHOWS_SP)], [one()], 300,
    trap(2, 0, 0, 3), stored(5, 0, 0, 4, 0x80000410), ended("finished", 7, devices=1, traps=1))

# c2 that isn't the thread's stack from its base, or may not store what is local: the frame unwinds.
for name, text in (
        ("untagged", ["ccleartag csp, csp"]), ("of_globals", ["cmove csp, cgp"]),
        ("of_another_base", ["cincaddrimm csp, csp, -512", "csetboundsimm csp, csp, 512",
                             "cincaddrimm csp, csp, 256"]),
        ("without_store_local", ["li a0, -17", "candperm csp, csp, a0"])):
    row(f"trap_stack_{name}", [handles("a", "main: " + text[0], text[1:], "ebreak", SHOWS_SP)], [one()], 300,
        trap(len(text) + 1, 0, 0, 3), ended("finished", len(text) + 1, traps=1))
row("trap_stack_past_the_top", [
    caller(), handles("b", "main: cincaddrimm csp, csp, 16", "ebreak", SHOWS_SP)],
    [one()], 300, called(7, 0, 0, 5, 11), trap(9, 0, 1, 3), stored(12, 0, 0, 4, -1), stored(13, 0, 0, 4, 0),
    ended("finished", 16, calls=1, devices=2, traps=1))

# Where c2 ends isn't looked at: the record lies past it, and the handler's first load of it traps.
row("trap_stack_with_a_short_top", [
    handles("a", "main: cgetbase a0, csp", "csetaddr csp, csp, a0", "csetboundsimm csp, csp, 16",
            "cincaddrimm csp, csp, 128", "ebreak", "h: cgettag a4, csp", PORT, shows("a4", "sp"), "clw a1, 0(csp)")],
    [one()], 300, trap(5, 0, 0, 3), stored(9, 0, 0, 4, 1), stored(10, 0, 0, 4, 0x800000b0), trap(11, 0, 0, 28, 1, 2),
    ended("finished", 11, devices=2, traps=2))

# ---- whose it is

# The frame is a's while it runs a library's code; a library's own export of that name is no handler.
LIBRARY = [{"name": "l", "code": {"lines": ["go: ebreak", "h: cret"]}, "exports": [export("go"), HANDLER]}]
TO_L = {"as": "lib", "library": "l.go"}
row("trap_in_a_library", [
    handles("a", "main: cimport ct2, lib", "cjalr cra, ct2", "cret", "h: clw a3, 64(csp)", PORT, shows("a3"), "cret",
            imports=[TO_L])],
    [one()], 300, trap(4, 0, 0, 3), stored(8, 0, 0, 4, 0x80000080), ended("finished", 10, devices=1, traps=1),
    libraries=copy.deepcopy(LIBRARY))
row("trap_in_a_library_alone", [
    compartment("a", [UART, TO_L], ["main"], "main: cimport ct2, lib", "cjalr cra, ct2", "cret")],
    [one()], 300, trap(4, 0, 0, 3), ended("finished", 4, traps=1), libraries=copy.deepcopy(LIBRARY))

# The caller's handler isn't entered for its callee's trap.
row("handler_of_the_callee_alone", [
    handles("a", f"main: {KEEP}", calls("next"), PORT, shows("a0"), BACK, f"h: {PORT}", "li a0, 255", shows("a0"),
            "cret", imports=[TO_B]),
    handles("b", "main: ebreak", "h: clw a1, 0(cs0)")],
    [one()], 300, called(7, 0, 0, 5, 12), trap(8, 0, 1, 3), trap(9, 0, 1, 28, 2, 8), stored(12, 0, 0, 4, -1),
    ended("finished", 15, calls=1, devices=1, traps=2))

# ---- once for a frame

# It goes back behind the first ebreak, and the second one unwinds.
row("handler_that_jumps_back", [
    handles("a", f"main: {PORT}", "ebreak", shows("a0"), "ebreak", "li a0, 7", "h: clw a1, 64(csp)", "addi a1, a1, 4",
            "cla cs0, main", "csetaddr cs0, cs0, a1", PORT, "cjr cs0")],
    [one()], 300, trap(3, 0, 0, 3), stored(12, 0, 0, 4, 3), trap(13, 0, 0, 3),
    ended("finished", 13, devices=1, traps=2))

# Each frame of a compartment that calls itself from its handler has its own; the fifth call is too deep.
row("handlers_frame_by_frame", [
    asker(), handles("b", "main: ebreak", f"h: {KEEP}", "li a0, 0", calls("more"), "cmove ca1, ca0", "li a0, 1", BACK,
                     imports=[dict(gate("b.main"), **{"as": "more"})])],
    [one(5)], 300,
    *[line for n, entry in enumerate((5, 11, 11, 11)) for line in (
        called(7 + 9 * n, 0, min(n, 1), entry, 12), trap(8 + 9 * n, 0, 1, 3))],
    stored(66, 0, 0, 4, -12), ended("finished", 69, calls=4, devices=1, traps=4))

# ---- what it may do

DOWN = dict(gate("c.main"), **{"as": "down"})
ASKS = ["main: ebreak", f"h: {KEEP}", calls("down"), "cmove ca1, ca0", "li a0, 1", BACK]
row("handler_that_calls", [
    asker(), handles("b", ASKS[0], ASKS[1], *ASKS[2:], imports=[DOWN]),
    compartment("c", [UART], ["main"], "main: li a0, 5", "cret")],
    [one()], 300, called(7, 0, 0, 5, 12), trap(8, 0, 1, 3), called(15, 0, 1, 11, 18), stored(26, 0, 0, 4, 5),
    ended("finished", 29, calls=2, devices=1, traps=1))
row("callee_of_a_handler_traps", [
    asker(), handles("b", ASKS[0], ASKS[1], *ASKS[2:], imports=[DOWN]),
    compartment("c", [UART], ["main"], "main: ebreak")],
    [one()], 300, called(7, 0, 0, 5, 12), trap(8, 0, 1, 3), called(15, 0, 1, 11, 18), trap(16, 0, 2, 3),
    stored(24, 0, 0, 4, -1), ended("finished", 27, calls=2, devices=1, traps=2))

# Its calls are bound by the thread's frames and by what its stack has left under the record.
CALLS = ["main: ebreak", f"h: {KEEP}", calls("next"), PORT, shows("a0"), BACK]
row("too_deep_in_a_handler", [
    handles("a", *CALLS, imports=[TO_B]), compartment("b", [UART], ["main"], "main: li a0, 6", "cret")],
    [one(1)], 300, trap(1, 0, 0, 3), stored(11, 0, 0, 4, -12), ended("finished", 14, devices=1, traps=1))
row("no_stack_in_a_handler", [
    handles("a", *CALLS, imports=[TO_B]),
    compartment("b", [UART], [export("main", stack=960)], "main: li a0, 6", "cret")],
    [one()], 300, trap(1, 0, 0, 3), stored(11, 0, 0, 4, -11), ended("finished", 14, devices=1, traps=1))
row("just_stack_in_a_handler", [
    handles("a", *CALLS, imports=[TO_B]),
    compartment("b", [UART], [export("main", stack=944)], "main: li a0, 6", "cret")],
    [one()], 300, trap(1, 0, 0, 3), called(8, 0, 0, 5, 12), stored(14, 0, 0, 4, 6),
    ended("finished", 17, calls=1, devices=1, traps=1))

# By its name it is called as any export is; where it traps then, it is entered once more.
TO_HANDLER = dict(gate("b.handler"), **{"as": "next"})
row("handler_called_by_its_name", [
    compartment("a", [UART, TO_HANDLER], ["main"], f"main: {KEEP}", "li a0, 4", "li a1, 5", calls("next"), PORT,
                shows("a0", "a1"), BACK),
    handles("b", "main: ebreak", "h: li a0, 1", "li a1, 9", "cret")],
    [one()], 300, called(9, 0, 0, 5, 12), stored(16, 0, 0, 4, 1), stored(17, 0, 0, 4, 9),
    ended("finished", 20, calls=1, devices=2))
row("handler_called_by_its_name_traps", [
    compartment("a", [UART, TO_HANDLER], ["main"], f"main: {KEEP}", "li a0, 0", calls("next"), PORT,
                shows("a0", "a1"), BACK),
    handles("b", "main: ebreak", "h: bnez a0, again", "ebreak", "again: li a0, 1", "li a1, 9", "cret")],
    [one()], 300, called(8, 0, 0, 5, 12), trap(10, 0, 1, 3), stored(18, 0, 0, 4, 9), stored(19, 0, 0, 4, 0),
    ended("finished", 22, calls=1, devices=2, traps=1))

# ---- what a routine, a fetch and the switch leave of a trap

RECORDED = [f"h: {PORT}", "clw a3, 64(csp)"]
row("switch_without_an_import", [
    handles("a", "main: cimport ct2, switch", "cjalr cra, ct2", RECORDED, shows("a3", "a0", "a1", "a2"), "cret")],
    [one()], 300, trap(4, 0, 0, 28, 2, 6), *[stored(8 + n, 0, 0, 4, value) for n, value in enumerate(
        [0x10000, 28, 2, 6])], ended("finished", 13, devices=4, traps=1))
row("switch_without_a_stack", [
    handles("a", "main: cimport ct1, next", "cimport ct2, switch", "ccleartag csp, csp", "cjalr cra, ct2", RECORDED,
            shows("a3"), "cret", imports=[TO_B]),
    compartment("b", [UART], ["main"], "main: cret")],
    [one()], 300, trap(7, 0, 0, 28, 2, 2), ended("finished", 7, traps=1))
row("service_without_a_way_back", [
    handles("a", "main: cimport ct2, yield", "li ra, 0", "cjr ct2", RECORDED, shows("a3", "a2"), "cret",
            imports=[service("yield")])],
    [one()], 300, trap(5, 0, 0, 28, 2, 1), stored(9, 0, 0, 4, 0x10020), stored(10, 0, 0, 4, 1),
    ended("finished", 12, devices=2, traps=1))
row("fetch_past_the_end", [
    handles("a", "main: cla cs0, main", "cgettop a0, cs0", "csetaddr cs0, cs0, a0", "cjr cs0", RECORDED,
            shows("a3", "a1", "a2"), "cret")],
    [one()], 300, trap(6, 0, 0, 28, 1, 16), *[stored(10 + n, 0, 0, 4, value) for n, value in enumerate(
        [0x80000040, 1, 16])], ended("finished", 14, devices=3, traps=1))
row("fetch_without_a_tag", [
    handles("a", "main: cla cs0, main", "cjalr ct1, 1024(cs0)", RECORDED, shows("a3", "a1", "a2"), "cret")],
    [one()], 300, trap(4, 0, 0, 28, 2, 16), *[stored(8 + n, 0, 0, 4, value) for n, value in enumerate(
        [0x80000410, 2, 16])], ended("finished", 12, devices=3, traps=1))

# ---- interrupts and turns

DISABLED = [export("main", posture="disabled"), export("handler", at="h", posture="disabled", stack=32752, args=0,
                                                        passes="data")]
row("disabled_export_traps", [
    caller(), compartment("b", [UART], copy.deepcopy(DISABLED), "main: nop", "ebreak", "h: li a0, 1", "li a1, 3",
                          "cret")],
    [one()], 300, called(7, 0, 0, 5, 11), off(7, 0, 1, 11), trap(9, 0, 1, 3), stored(16, 0, 0, 4, 3),
    stored(17, 0, 0, 4, 0), ended("finished", 20, calls=1, devices=2, traps=1))
# The tick before step 10 finds interrupts off; the trap lets it in at the next step.
row("tick_pending_at_a_trap", [
    asker(), compartment("b", [UART], [DISABLED[0], HANDLER], "main: nop", "nop", "nop", "nop", "ebreak",
                         "h: li a0, 1", "li a1, 3", "cret")],
    [one(), one(name="t1")], 300, called(7, 0, 0, 5, 11), off(7, 0, 1, 11), trap(12, 0, 1, 3), stored(25, 0, 0, 4, 3),
    called(28, 1, 0, 5, 11), off(28, 1, 1, 11), trap(33, 1, 1, 3), stored(41, 1, 0, 4, 3),
    ended("finished", 44, ticks=4, calls=2, devices=2, traps=2), quantum=9)
row("handlers_of_two_threads", [handles("a", "main: ebreak", SHOWS_SP)], [one(), one(name="t1")], 300,
    trap(1, 0, 0, 3), trap(4, 1, 0, 3), stored(7, 0, 0, 4, 0x80000420), stored(10, 1, 0, 4, 0x80000820),
    ended("finished", 12, ticks=3, devices=2, traps=2), quantum=3)
row("handler_that_yields", [
    handles("a", "main: ebreak", f"h: {KEEP}", served("yield"), PORT, shows("a0"), BACK, imports=[service("yield")])],
    [one(), one(name="t1")], 300, trap(1, 0, 0, 3), trap(7, 1, 0, 3), stored(15, 0, 0, 4, 0), stored(21, 1, 0, 4, 0),
    ended("finished", 24, devices=2, traps=2))

# ---- what stays

row("charge_stays_at_a_trap", [
    compartment("a", [UART, service("allocate"), service("remaining")], ["main", HANDLER], "main: " + allocates(24)[0],
                allocates(24)[1:], "ebreak", f"h: {KEEP}", "cimport ca0, q", served("remaining"), PORT, shows("a0"),
                BACK, **QUOTA)],
    [one()], 300, allocated(7, 0, 0, 7, 1, 0x80000668, 24, 32), trap(8, 0, 0, 3), stored(18, 0, 0, 4, 32),
    ended("finished", 21, devices=1, allocations=1, traps=1))
# Of the record nothing is left on the stack.
row("stack_after_a_handler", [
    compartment("a", [UART, TO_B], ["main"], f"main: {KEEP}", "cincaddrimm csp, csp, -256", calls("next"), PORT,
                shows("a0"), [line for n in (-80, -16, -12) for line in (f"clw a1, {n}(csp)", *shows("a1"))], BACK),
    handles("b", "main: ebreak", "h: li a0, 1", "li a1, 9", "cret")],
    [one()], 300, called(8, 0, 0, 5, 11), trap(9, 0, 1, 3), stored(16, 0, 0, 4, 9),
    *[stored(n, 0, 0, 4, 0) for n in (18, 20, 22)], ended("finished", 25, calls=1, devices=4, traps=1))

# ---- the smallest sample with a handler

for name, text, told in (
        ("handler_of_tiny", ["h: clw a1, 20(csp)", PORT, "csw a1, 0(ct0)", "cret"],
         [stored(7, 0, 0, 4, 0x10000000), ended("finished", 9, devices=1, traps=1)]),
        ("handler_of_tiny_that_traps", ["h: clw a1, 0(ct0)"],
         [trap(4, 0, 0, 28, 2, 5), ended("finished", 4, traps=2)])):
    tiny = copy.deepcopy(sample("tiny"))
    tiny["compartments"][0]["code"] = source(name + ".s", [f"main: {PORT}", "csw a0, 16(ct0)", *text])
    tiny["compartments"][0]["exports"] = [export("main"), HANDLER]
    run(name, tiny, 100, trap(3, 0, 0, 28, 1, 5), *told)
    # By its image it runs so too, also where that is of the second version of the format.
    for version in (1, 2):
        same = dict(tiny, version=version)
        found = [trap(3, 0, 0, 28, 1, 5), *told]
        assert modelled(image(same), 100) == found
        case(f"{name}_image_{version}", ["runimage", "{}", "100"], image(same), lines(report(same), *found))
