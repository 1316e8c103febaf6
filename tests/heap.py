#!/usr/bin/env python3
"""Worked rows of the heap: allocate, free and remaining, with hostile callers. What was freed is freed.py's.

    heap.py OUT        writes the cases that cases.py tells of

A service is four steps, the routine's own among them. The heap begins where the regions end: code with its import
table, export tables, globals, stacks, and of the trusted region 16 bytes, and 160 for each thread with 64 for each of
its frames, each in multiples of 16. An object begins 8 bytes behind its chunk's head.
"""
from cases import (QUOTA, SMALL, UART, allocated, allocates, called, calls, case, compartment, ended, export, freed,
                   frees, gate, lines, link, modelled, row, run, served, service, stored, thread, trap)
from firmwares import APP, HEX, board
from model import demo

BACK = ["cmove cra, cs0", "cret"]
PORT = "cimport cs1, uart"
SHOW = "csw a0, 0(cs1)"

# ---- two threads that allocate and call

SHOWN = APP.replace("    cmove cra, cs0\n", "    clw a1, 0(ca0)\n    cmove cra, cs0\n")
assert SHOWN != APP
# The driver hands back its globals, of which plain data comes.
run("plain_results_of_board", board(SHOWN, "put: cmove ca0, cgp\ncret\n", HEX), 200,
    allocated(8, 0, 0, 7, 1, 0x80000568, 24, 32), called(20, 0, 0, 5, 13),
    allocated(28, 1, 0, 7, 2, 0x80000588, 24, 64), called(40, 1, 0, 5, 13), trap(44, 0, 0, 28, 2, 10),
    trap(48, 1, 0, 28, 2, 10), ended("finished", 48, ticks=2, calls=2, allocations=2, traps=2))

# ---- what the routines answer

# A number in place of the quota, size 0, more than the limit, and then all of it. Nothing remains. A part isn't freed;
# the whole is, by a capability that stays without a tag.
row("answers", [
    compartment("a", [UART, service("allocate"), service("free"), service("remaining")], ["main"],
                "main: cmove cs0, cra", PORT, "li a0, 1", "li a1, 8", served("allocate"), SHOW,
                allocates(0), SHOW, allocates(57), SHOW, allocates(56), "cmove ctp, ca0",
                "cimport ca0, q", served("remaining"), SHOW, "csetboundsimm ca1, ctp, 8", frees(), SHOW,
                "cmove ca1, ctp", frees(), SHOW, "clw a2, 0(ctp)", **QUOTA)],
    [thread("a.main")], 100, stored(10, 0, 0, 4, -1), stored(18, 0, 0, 4, -4), stored(26, 0, 0, 4, -2),
    allocated(33, 0, 0, 8, 1, 0x80000368, 56, 64), stored(41, 0, 0, 4, 0), stored(49, 0, 0, 4, -6),
    freed(56, 0, 0, 8, 1, 0x80000368, 56, 0), stored(57, 0, 0, 4, 0), trap(58, 0, 0, 28, 2, 4),
    ended("finished", 58, devices=6, allocations=1, frees=1, traps=1), ram=SMALL)

# What no free takes, one after another: a number, the globals, the stack, the quota, a service, the object without its
# tag, sealed by a key of the compartment's own, its beginning, its end, and by another quota. Its pointer is taken
# without any right and at an address in its middle, and once only.
row("what_free_takes", [
    compartment("a", [UART, service("allocate"), service("free")], ["main"], "main: cmove cs0, cra", PORT,
                allocates(24), "cmove ctp, ca0", "li a1, 24", frees(), SHOW, "cmove ca1, cgp", frees(), SHOW,
                "cmove ca1, csp", frees(), SHOW, "cimport ca1, q", frees(), SHOW, "cimport ca1, free", frees(), SHOW,
                "ccleartag ca1, ctp", frees(), SHOW, "cimport ct0, key13", "cseal ca1, ctp, ct0", frees(), SHOW,
                "csetboundsimm ca1, ctp, 16", frees(), SHOW, "cincaddrimm ca1, ctp, 8", "csetboundsimm ca1, ca1, 16",
                frees(), SHOW, "cmove ca1, ctp", "cimport ca0, r", served("free"), SHOW, "cincaddrimm ca1, ctp, 16",
                "candperm ca1, ca1, zero", frees(), SHOW, "cmove ca1, ctp", frees(), SHOW, BACK,
                quotas=[{"name": "q", "limit": 64}, {"name": "r", "limit": 64}], keys=[13])],
    [thread("a.main")], 200, allocated(10, 0, 0, 7, 1, 0x80000438, 24, 32),
    *[stored(step, 0, 0, 4, -6) for step in (19, 27, 35, 44, 53, 61, 71, 79, 88, 96)],
    freed(104, 0, 0, 7, 1, 0x80000438, 24, 0), stored(105, 0, 0, 4, 0), stored(113, 0, 0, 4, -6),
    ended("finished", 116, ticks=1, devices=12, allocations=1, frees=1), ram=SMALL)

# What is no quota, by each routine: a number, the globals, an export, a sealed object, a key, the quota without its
# tag, globals sealed by a key of the compartment's own, and by the same key at a quota's type.
for routine in ("allocate", "free", "remaining"):
    asked = [*served(routine), SHOW]
    row(f"{routine}_without_a_quota", [
        compartment("a", [UART, gate("a.main"), {"as": "secret", "sealed": "secret"}, service(routine)], ["main"],
                    "main: cmove cs0, cra", PORT, "li a0, 1", asked, "cmove ca0, cgp", asked, "cimport ca0, main",
                    asked, "cimport ca0, secret", asked, "cimport ca0, key13", asked, "cimport ca0, q",
                    "ccleartag ca0, ca0", asked, "cimport ct0, key13", "cmove ca0, cgp", "cseal ca0, ca0, ct0",
                    asked, "cimport ct0, key13",
                    "li a2, 10", "csetaddr ct0, ct0, ca2", "cseal ca0, cgp, ct0", asked, BACK, keys=[13], **QUOTA)],
        [thread("a.main")], 100, *[stored(step, 0, 0, 4, -1) for step in (9, 15, 22, 29, 36, 44, 53, 63)],
        ended("finished", 66, devices=8), sealed=[{"name": "secret", "type": 13, "bytes": "00"}])

# The heap has 3,280 bytes: a size of 2^32 - 1, one of 3,281, the heap's own, which leaves no room for a head, and the
# greatest that has a place; then one byte more.
row("sizes", [
    compartment("a", [UART, service("allocate")], ["main"], "main: cmove cs0, cra", PORT, allocates(-1), SHOW,
                allocates(3281), SHOW, allocates(3280), SHOW, allocates(3272), SHOW, allocates(1), SHOW, BACK,
                quotas=[{"name": "q", "limit": 4096}])],
    [thread("a.main")], 100, stored(11, 0, 0, 4, -4), stored(20, 0, 0, 4, -4), stored(29, 0, 0, 4, -3),
    allocated(37, 0, 0, 6, 1, 0x80000338, 3272, 3280), stored(38, 0, 0, 4, 0x80000338), stored(46, 0, 0, 4, -3),
    ended("finished", 49, devices=5, allocations=1), ram=SMALL)

# Objects of 1,000 bytes until there are no more: a fourth has no place, or would pass the limit. The third is freed;
# seven steps later its place isn't free yet, and then it is.
for limit, answer in ((4032, -3), (4031, -2)):
    row(f"until_{-answer}", [
        compartment("a", [UART, service("allocate"), service("free")], ["main"], "main: cmove cs0, cra", PORT,
                    "again: cmove ctp, ca0", allocates(1000), SHOW, "cgettag a2, ca0", "bnez a2, again",
                    "cmove ca1, ctp", frees(), allocates(1000), SHOW, allocates(1000), SHOW, BACK,
                    quotas=[{"name": "q", "limit": limit}])],
        [thread("a.main")], 100, allocated(11, 0, 0, 7, 1, 0x80000328, 1000, 1008), stored(12, 0, 0, 4, 0x80000328),
        allocated(22, 0, 0, 7, 2, 0x80000718, 1000, 2016), stored(23, 0, 0, 4, 0x80000718),
        allocated(33, 0, 0, 7, 3, 0x80000b08, 1000, 3024), stored(34, 0, 0, 4, 0x80000b08), stored(45, 0, 0, 4, answer),
        freed(54, 0, 0, 7, 3, 0x80000b08, 1000, 2016), stored(62, 0, 0, 4, -5),
        allocated(69, 0, 0, 7, 4, 0x80000b08, 1000, 3024), stored(70, 0, 0, 4, 0x80000b08),
        ended("finished", 73, devices=6, allocations=4, frees=1), ram=SMALL)

# A quota lent to a callee: by an export that passes plain data it is none.
row("quota_as_plain_data", [
    compartment("a", [gate("b.f")], ["main"], "main: cmove cs0, cra", "cimport ca0, q", calls("f"), "cmove cra, cs0",
                "cret", **QUOTA),
    compartment("b", [UART, service("allocate")], [export("f", passes="data")], "f: cmove cs0, cra", "li a1, 8",
                served("allocate"), PORT, SHOW, BACK)],
    [thread("a.main")], 100, called(9, 0, 0, 4, 12), stored(18, 0, 1, 10, -1),
    ended("finished", 24, calls=1, devices=1))

# In an object stand what look like heads: of a live chunk, number 2, whose object would be the 24 bytes behind it, and
# of a free one. The 24 bytes aren't freed, neither before there is an object 2 nor then; its place is the one behind.
row("forged_heads", [
    compartment("a", [UART, service("allocate"), service("free")], ["main"], "main: cmove cs0, cra", PORT,
                allocates(48), "cmove ctp, ca0", "li a2, 33", "csw a2, 8(ctp)", "li a2, 2", "csw a2, 12(ctp)",
                "li a2, 16", "csw a2, 40(ctp)", "li a2, -1", "csw a2, 44(ctp)", "cincaddrimm ca1, ctp, 16",
                "csetboundsimm ca1, ca1, 24", "cmove ct0, ca1", frees(), SHOW, allocates(8), SHOW, "cmove ca1, ct0",
                frees(), SHOW, "cmove ca1, ctp", frees(), SHOW, BACK, quotas=[{"name": "q", "limit": 100}])],
    [thread("a.main")], 100, allocated(10, 0, 0, 7, 1, 0x80000358, 48, 56), stored(29, 0, 0, 4, -6),
    allocated(36, 0, 0, 7, 2, 0x80000390, 8, 72), stored(37, 0, 0, 4, 0x80000390), stored(45, 0, 0, 4, -6),
    freed(52, 0, 0, 7, 1, 0x80000358, 48, 16), stored(53, 0, 0, 4, 0),
    ended("finished", 56, devices=4, allocations=2, frees=1), ram=SMALL)


def tried(name, wanted, *text):
    """What is tried with an object of 24 bytes in ca0 traps, in the thread's first frame."""
    row(name, [compartment("a", [service("allocate")], ["main"], "main:", allocates(24), *text, **QUOTA)],
        [thread("a.main")], 100, allocated(7, 0, 0, 5, 1, 0x800002a8, 24, 32), trap(wanted[0], 0, 0, *wanted[1:]),
        ended("finished", wanted[0], allocations=1, traps=1), ram=SMALL)


tried("head_of_a_chunk", (8, 28, 1, 10), "clw a1, -8(ca0)")
tried("past_an_object", (8, 28, 1, 10), "csw a1, 24(ca0)")
tried("address_below_an_object", (9, 28, 2, 5), "cincaddrimm ct0, ca0, -8", "clw a1, 8(ct0)")
tried("wider_object", (9, 28, 2, 5), "csetboundsimm ct0, ca0, 32", "clw a1, 0(ct0)")
tried("stack_in_an_object", (10, 28, 2, 5), "csc csp, 0(ca0)", "clc ct0, 0(ca0)", "clw a1, -4(ct0)")
tried("code_in_an_object", (8, 28, 17, 10), "cjr ca0")

# ---- generated firmware

for number, steps, ticks, calls, each in ((0, 112, 2, 2, 4), (62, 3956, 79, 126, 128)):
    wanted = ended("finished", steps, ticks, calls, devices=each, allocations=each, frees=each)
    assert modelled(link(*demo.firmware(number)), 100000)[-1] == wanted, number
    case(f"demo_{number}", ["demo", str(number)], "", lines(wanted))
