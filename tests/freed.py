#!/usr/bin/env python3
"""Worked rows of what was freed: stale pointers wherever hostile code may keep them, and sweeps.

    freed.py OUT       writes the cases that cases.py tells of

A slice of the revoker comes before each step, so a sweep is cut between any two steps. RAM of 4,096 bytes has 512
granules of 8 bytes: a sweep of slices of 64 is eight slices, the first of them before the step that follows the free.
"""
import copy

from cases import (QUOTA, SMALL, UART, allocated, allocates, called, calls, compartment, ended, freed, frees, gate, row,
                   served, service, stored, thread, trap)

BACK = ["cmove cra, cs0", "cret"]
PORT = "cimport cs1, uart"
SHOW = "csw a0, 0(cs1)"
ROOM = {"quotas": [{"name": "q", "limit": 4096}]}
HEAP = [service("allocate"), service("free")]


def tag_of(register, port="cs1"):
    """Shows whether a register has its tag: two steps."""
    return [f"cgettag a3, {register}", f"csw a3, 0({port})"]


def alone(name, text, *wanted, **members):
    """One thread of a compartment with uart (entry 4), allocate, free and the quota (7)."""
    row(name, [compartment("a", [UART, *HEAP], ["main"], "main:", *text, **ROOM)], [thread("a.main")],
        100, *wanted, ram=SMALL, **members)


# ---- when a place is free again

# The only object is freed in step 17, and another one of its length, more than half of the heap, is asked for seven
# steps later, or eight; seven slices of 74 granules are a sweep, and of 73 aren't.
def slices(name, steps, made, **members):
    alone(name, ["cmove cs0, cra", PORT, allocates(1800), "cmove ca1, ca0", frees(), *["nop"] * (steps - 7),
                 allocates(1800), SHOW, BACK],
          allocated(10, 0, 0, 7, 1, 0x800002f8, 1800, 1808), freed(17, 0, 0, 7, 1, 0x800002f8, 1800, 0),
          *([allocated(17 + steps, 0, 0, 7, 2, 0x800002f8, 1800, 1808)] if made else []),
          stored(18 + steps, 0, 0, 4, 0x800002f8 if made else -5),
          ended("finished", 21 + steps, devices=1, allocations=1 + made, frees=1), **members)


slices("seven_slices", 7, False)
slices("eight_slices", 8, True)
slices("seven_slices_of_73", 7, False, version=2, sweep=73)
slices("seven_slices_of_74", 7, True, version=2, sweep=74)

# The thread sleeps from step 22 on. The sweep goes on and passes the last of its 64 slices before step 81, in which the
# thread wakes after two ticks; after one it asks too early.
def slept(name, ticks, wakes, made):
    row(name, [compartment("a", [UART, *HEAP, service("sleep")], ["main"], "main: cmove cs0, cra", PORT,
                           allocates(1800), "cmove ca1, ca0", frees(), f"li a0, {ticks}", served("sleep"),
                           allocates(1800), SHOW, BACK, **ROOM)], [thread("a.main")],
        200, allocated(10, 0, 0, 8, 1, 0x80000308, 1800, 1808), freed(17, 0, 0, 8, 1, 0x80000308, 1800, 0),
        *([allocated(wakes + 6, 0, 0, 8, 2, 0x80000308, 1800, 1808)] if made else []),
        stored(wakes + 7, 0, 0, 4, 0x80000308 if made else -5),
        ended("finished", wakes + 10, ticks=ticks, devices=1, allocations=1 + made, frees=1),
        ram=SMALL, version=2, sweep=8, quantum=40)


slept("slices_in_a_sleep", 2, 81, True)
slept("too_few_slices_in_a_sleep", 1, 41, False)

# An object is freed in step 26, and in step 33, while the sweep for it runs, another one, of more than half of the
# heap. That waits for the next sweep, which begins before step 35 and ends before step 42.
for nops, made in ((1, False), (2, True)):
    alone("freed_in_a_sweep_" + ("and_swept" if made else "and_not"),
          ["cmove cs0, cra", PORT, allocates(8), "cmove ctp, ca0", allocates(1800), "cmove ct0, ca0", "cmove ca1, ctp",
           frees(), "cmove ca1, ct0", frees(), *["nop"] * nops, allocates(1800), SHOW, BACK],
          allocated(10, 0, 0, 7, 1, 0x80000338, 8, 16), allocated(18, 0, 0, 7, 2, 0x80000348, 1800, 1824),
          freed(26, 0, 0, 7, 1, 0x80000338, 8, 1808), freed(33, 0, 0, 7, 2, 0x80000348, 1800, 0),
          *([allocated(42, 0, 0, 7, 3, 0x80000338, 1800, 1808)] if made else []),
          stored(41 + nops, 0, 0, 4, 0x80000338 if made else -5),
          ended("finished", 44 + nops, devices=1, allocations=2 + made, frees=2))

# A pointer stands at 2,832 bytes of RAM, and what it points to is freed. Loaded from there while the front of the sweep
# is at 512, it has no tag; stored to the globals, below the front, it has none there either, when its object's place is
# another's.
alone("stale_below_the_front",
      ["cmove cs0, cra", PORT, allocates(8), "cmove ctp, ca0", allocates(2000), "cincaddrimm ct0, ca0, 1992",
       "csc ctp, 0(ct0)", "cmove ca1, ctp", frees(), "clc ca2, 0(ct0)", "cgettag a3, ca2", "csc ca2, 0(cgp)",
       "csw a3, 0(cs1)", allocates(8), "clc ca2, 0(cgp)", tag_of("ca2"), "csw a2, 0(cs1)", "clw a3, 0(ca2)"],
      allocated(10, 0, 0, 7, 1, 0x80000338, 8, 16), allocated(18, 0, 0, 7, 2, 0x80000348, 2000, 2024),
      freed(27, 0, 0, 7, 1, 0x80000338, 8, 2008), stored(31, 0, 0, 4, 0),
      allocated(38, 0, 0, 7, 3, 0x80000338, 8, 2024), stored(41, 0, 0, 4, 0), stored(42, 0, 0, 4, 0x80000338),
      trap(43, 0, 0, 28, 2, 12), ended("finished", 43, devices=3, allocations=3, frees=1, traps=1))

# A number and a capability are left in an object that is freed. The next one in its place is zero, and its pointer
# comes back from the globals with its tag: no mark is left.
alone("fresh_object",
      ["cmove cs0, cra", PORT, allocates(16), "li a2, -1", "csw a2, 0(ca0)", "csw a2, 4(ca0)", "csc cgp, 8(ca0)",
       "cmove ca1, ca0", frees(), "nop", allocates(16), "csc ca0, 0(cgp)", "clc ca0, 0(cgp)", "clw a2, 0(ca0)",
       "csw a2, 0(cs1)", "clw a2, 4(ca0)", "csw a2, 0(cs1)", "clc ca2, 8(ca0)", "csw a2, 0(cs1)", tag_of("ca2"), BACK],
      allocated(10, 0, 0, 7, 1, 0x80000328, 16, 24), freed(21, 0, 0, 7, 1, 0x80000328, 16, 0),
      allocated(29, 0, 0, 7, 2, 0x80000328, 16, 24), *[stored(step, 0, 0, 4, 0) for step in (33, 35, 37, 39)],
      ended("finished", 42, devices=4, allocations=2, frees=1))

# ---- stale pointers

# Thread t frees an object that u holds in a register while it is stopped, and that stands in their globals. What u
# loads through then has no tag, and neither has what t loads from there. The code has 160 bytes, the table of two
# exports 48.
row("stale_pointer_of_another_thread", [
    compartment("a", [*HEAP, service("yield")], ["first", "second"], "first: cmove cs0, cra", allocates(8),
                "csc ca0, 0(cgp)", "cmove cs1, ca0", served("yield"), "cmove ca1, cs1", frees(), served("yield"),
                "clc ca2, 0(cgp)", "clw a3, 0(ca2)", "second: clc ca2, 0(cgp)", served("yield"), "clw a3, 0(ca2)",
                **QUOTA)],
    [thread("a.first"), thread("a.second", "u")], 100, allocated(8, 0, 0, 7, 1, 0x80000538, 8, 16),
    freed(26, 0, 0, 7, 1, 0x80000538, 8, 0), trap(31, 1, 0, 28, 2, 12), trap(33, 0, 0, 28, 2, 12),
    ended("finished", 33, allocations=1, frees=1, traps=2), ram=SMALL)

# Who frees loses the pointer too.
alone("stale_pointer_of_its_own", [allocates(8), "cmove ctp, ca0", "cmove ca1, ca0", frees(), "csw a0, 0(ctp)"],
      allocated(7, 0, 0, 7, 1, 0x800002c8, 8, 16), freed(15, 0, 0, 7, 1, 0x800002c8, 8, 0), trap(16, 0, 0, 28, 2, 4),
      ended("finished", 16, allocations=1, frees=1, traps=1))


def used_again(name, compartments, threads, first, wanted, **members):
    """An object of 8 bytes at `first` is freed, and another one allocated: by slices of one granule behind it, where
    the load filter alone takes tags; by slices of all of RAM in its place, where the sweep took them and no mark is
    left."""
    for rate, place in ((1, first + 16), (65536, first)):
        row(f"{name}_{rate}", copy.deepcopy(compartments), threads, 100, *wanted(place), ram=SMALL, version=2,
            sweep=rate, **members)


# In a register of a thread that is stopped.
used_again("register", [
    compartment("a", [*HEAP, service("yield")], ["first", "second"], "first:", allocates(8), "csc ca0, 0(cgp)",
                "cmove cs1, ca0", served("yield"), "csw a0, 0(cs1)", "second: cmove cs0, cra", "clc ca1, 0(cgp)",
                frees(), allocates(8), BACK, **QUOTA)],
    [thread("a.first"), thread("a.second", "u")], 0x80000538, lambda place: [
        allocated(7, 0, 0, 7, 1, 0x80000538, 8, 16), freed(21, 1, 0, 7, 1, 0x80000538, 8, 0),
        allocated(28, 1, 0, 7, 2, place, 8, 16), trap(32, 0, 0, 28, 2, 9),
        ended("finished", 32, allocations=2, frees=1, traps=1)])

# In a frame of another thread, which yields in a call: what its caller keeps in c8.
used_again("frame", [
    compartment("a", [*HEAP, gate("b.f")], ["first", "second"], "first:", allocates(8), "csc ca0, 0(cgp)",
                "cmove cs0, ca0", calls("f"), "csw a0, 0(cs0)", "second: cmove cs0, cra", "clc ca1, 0(cgp)", frees(),
                allocates(8), BACK, **QUOTA),
    compartment("b", [service("yield")], ["f"], "f: cmove cs1, cra", served("yield"), "cmove cra, cs1", "cret")],
    [thread("a.first"), thread("a.second", "u")], 0x80000598, lambda place: [
        allocated(7, 0, 0, 7, 1, 0x80000598, 8, 16), called(15, 0, 0, 6, 14), freed(28, 1, 0, 7, 1, 0x80000598, 8, 0),
        allocated(35, 1, 0, 7, 2, place, 8, 16), trap(42, 0, 0, 28, 2, 8),
        ended("finished", 42, calls=1, allocations=2, frees=1, traps=1)])

# In the frame of a callee that frees it by the quota that it was lent: its caller's c3, c8 and c9. The object that it
# allocated comes back with its tag.
used_again("frame_of_the_caller", [
    compartment("a", [UART, service("allocate"), gate("b.f")], ["main"], "main:", allocates(8), "cmove cgp, ca0",
                "cmove cs0, ca0", "cmove cs1, ca0", "cmove ca1, ca0", "cimport ca0, q", calls("f"), "cimport ct0, uart",
                *[tag_of(register, "ct0") for register in ("ca0", "cgp", "cs0", "cs1")], "csw a0, 0(cs1)", **QUOTA),
    compartment("b", HEAP, ["f"], "f: cmove cs0, cra", "cmove cs1, ca0", served("free"), "cmove ca0, cs1", "li a1, 8",
                served("allocate"), BACK)],
    [thread("a.main")], 0x80000388, lambda place: [
        allocated(7, 0, 0, 7, 1, 0x80000388, 8, 16), called(19, 0, 0, 6, 14), freed(25, 0, 1, 7, 1, 0x80000388, 8, 0),
        allocated(31, 0, 1, 7, 2, place, 8, 16), stored(38, 0, 0, 4, 1), *[stored(n, 0, 0, 4, 0) for n in (40, 42, 44)],
        trap(45, 0, 0, 28, 2, 9), ended("finished", 45, calls=1, devices=4, allocations=2, frees=1, traps=1)])

# In the globals and in another object, and in a shared object a part of it. The words stay.
used_again("memory", [
    compartment("a", [UART, *HEAP, {"as": "box", "shared": "box", "rights": "RWC"}], ["main"], "main:", allocates(8),
                "cmove ctp, ca0", allocates(8), "cimport ct0, box", "csc ca0, 0(cgp)", "csc ca0, 0(ctp)",
                "cincaddrimm ca1, ca0, 4", "csetboundsimm ca1, ca1, 4", "csc ca1, 0(ct0)", "cmove ca1, ca0", frees(),
                allocates(8), PORT, "clc ca2, 0(cgp)", tag_of("ca2"), "clc ca2, 0(ctp)", tag_of("ca2"),
                "clc ca2, 0(ct0)", tag_of("ca2"), "csw a2, 0(cs1)", "csw a0, 0(ca2)", **QUOTA)],
    [thread("a.main")], 0x80000378, lambda place: [
        allocated(7, 0, 0, 8, 1, 0x80000368, 8, 16), allocated(15, 0, 0, 8, 2, 0x80000378, 8, 32),
        freed(29, 0, 0, 8, 2, 0x80000378, 8, 16), allocated(36, 0, 0, 8, 3, place, 8, 32),
        *[stored(step, 0, 0, 4, 0) for step in (41, 44, 47)], stored(48, 0, 0, 4, 0x8000037c),
        trap(49, 0, 0, 28, 2, 12), ended("finished", 49, devices=4, allocations=3, frees=1, traps=1)],
    shared=[{"name": "box", "size": 16}])

# In the globals of a callee, which it was handed to and which tries to write to it later.
used_again("kept_by_a_callee", [
    compartment("a", [*HEAP, gate("b.keep"), gate("b.use")], ["main"], "main: cmove cs1, cra", allocates(8),
                "cmove cs0, ca0", calls("keep"), "cmove ca1, cs0", frees(), allocates(8), calls("use"),
                "cmove cra, cs1", "cret", **QUOTA),
    compartment("b", [], ["keep", "use"], "keep: csc ca0, 0(cgp)", "cret", "use: clc ca0, 0(cgp)", "csw a1, 0(ca0)")],
    [thread("a.main")], 0x80000378, lambda place: [
        allocated(8, 0, 0, 8, 1, 0x80000378, 8, 16), called(15, 0, 0, 6, 13), freed(25, 0, 0, 8, 1, 0x80000378, 8, 0),
        allocated(32, 0, 0, 8, 2, place, 8, 16), called(38, 0, 0, 7, 14), trap(40, 0, 1, 28, 2, 10),
        ended("finished", 43, calls=2, allocations=2, frees=1, traps=1)])

# Sealed by a key of the compartment's own, and opened later.
used_again("sealed", [
    compartment("a", HEAP, ["main"], "main:", allocates(8), "cimport ct0, key13", "cseal ca2, ca0, ct0",
                "csc ca2, 0(cgp)", "cmove ca1, ca0", frees(), allocates(8), "clc ca2, 0(cgp)", "cunseal ca2, ca2, ct0",
                "csw a0, 0(ca2)", keys=[13], **QUOTA)],
    [thread("a.main")], 0x800002f8, lambda place: [
        allocated(7, 0, 0, 6, 1, 0x800002f8, 8, 16), freed(18, 0, 0, 6, 1, 0x800002f8, 8, 0),
        allocated(25, 0, 0, 6, 2, place, 8, 16), trap(28, 0, 0, 28, 2, 12),
        ended("finished", 28, allocations=2, frees=1, traps=1)])

# Handed to free again, from a register, and from the globals when there is another object, which its own pointer frees.
used_again("freed_twice", [
    compartment("a", [UART, *HEAP], ["main"], "main: cmove cs0, cra", PORT, allocates(8), "cmove ctp, ca0",
                "csc ca0, 0(cgp)", "cmove ca1, ctp", frees(), SHOW, "cmove ca1, ctp", frees(), SHOW, allocates(8),
                "cmove ct0, ca0", "clc ca1, 0(cgp)", frees(), SHOW, "cmove ca1, ct0", frees(), SHOW, BACK, **QUOTA)],
    [thread("a.main")], 0x80000358, lambda place: [
        allocated(10, 0, 0, 7, 1, 0x80000358, 8, 16), freed(19, 0, 0, 7, 1, 0x80000358, 8, 0), stored(20, 0, 0, 4, 0),
        stored(28, 0, 0, 4, -6), allocated(35, 0, 0, 7, 2, place, 8, 16), stored(44, 0, 0, 4, -6),
        freed(51, 0, 0, 7, 2, place, 8, 0), stored(52, 0, 0, 4, 0),
        ended("finished", 55, devices=4, allocations=2, frees=2)])

# By a thread that waits for its first word: one that has an object in its place wakes it, and nobody else can.
used_again("waited_for", [
    compartment("a", [*HEAP, service("wait"), service("wake")], ["first", "second"], "first:", allocates(8),
                "csc ca0, 0(cgp)", "cmove cs1, ca0", "li a1, 0", served("wait"), "clw a2, 0(cs1)",
                "second: cmove cs0, cra", "clc ca1, 0(cgp)", frees(), allocates(8), "li a1, 1", served("wake"), BACK,
                **QUOTA)],
    [thread("a.first"), thread("a.second", "u")], 0x80000548, lambda place: [
        allocated(7, 0, 0, 8, 1, 0x80000548, 8, 16), freed(22, 1, 0, 8, 1, 0x80000548, 8, 0),
        allocated(29, 1, 0, 8, 2, place, 8, 16), *(
            [trap(38, 0, 0, 28, 2, 9), ended("finished", 38, allocations=2, frees=1, traps=1)] if place == 0x80000548
            else [ended("idle", 37, allocations=2, frees=1)])])

# The base decides and not the address: a pointer of another object whose address is in the freed one keeps its tag, and
# one of the freed object whose address is behind it doesn't.
used_again("moved", [
    compartment("a", [UART, *HEAP], ["main"], "main:", PORT, allocates(8), "cmove ctp, ca0", allocates(8),
                "cincaddrimm ctp, ctp, 16", "csc ctp, 0(cgp)", "cincaddrimm ca2, ca0, 16", "csc ca2, 8(cgp)",
                "cmove ca1, ca0", frees(), allocates(8), "clc ca2, 0(cgp)", tag_of("ca2"), "clc ca2, 8(cgp)",
                tag_of("ca2"), "csw a2, 0(cs1)", "csw a0, 0(ca2)", **QUOTA)],
    [thread("a.main")], 0x80000348, lambda place: [
        allocated(9, 0, 0, 7, 1, 0x80000338, 8, 16), allocated(17, 0, 0, 7, 2, 0x80000348, 8, 32),
        freed(28, 0, 0, 7, 2, 0x80000348, 8, 16), allocated(35, 0, 0, 7, 3, place, 8, 32), stored(38, 0, 0, 4, 1),
        stored(41, 0, 0, 4, 0), stored(42, 0, 0, 4, 0x80000358), trap(43, 0, 0, 28, 2, 12),
        ended("finished", 43, devices=3, allocations=3, frees=1, traps=1)])

# An empty one at the end of the first of two objects lies in the head of the second's chunk, and goes with that.
alone("empty_pointer_at_the_end",
      [PORT, allocates(8), "cmove ctp, ca0", allocates(8), "cmove ct0, ca0", "cincaddrimm ca2, ctp, 8",
       "csetboundsimm ca2, ca2, 0", "cmove ca1, ctp", frees(), tag_of("ca2"), "cmove ca1, ct0", frees(), tag_of("ca2"),
       "csw a0, 0(ca2)"],
      allocated(9, 0, 0, 7, 1, 0x80000328, 8, 16), allocated(17, 0, 0, 7, 2, 0x80000338, 8, 32),
      freed(27, 0, 0, 7, 1, 0x80000328, 8, 16), stored(29, 0, 0, 4, 1), freed(36, 0, 0, 7, 2, 0x80000338, 8, 0),
      stored(38, 0, 0, 4, 0), trap(39, 0, 0, 28, 2, 12),
      ended("finished", 39, devices=2, allocations=2, frees=2, traps=1))

# A sweep of 512 slices passes the registers and the frame of a thread one by one, while another thread counts down from
# 255. It frees in step 31, and in step 549 has an object in the place.
row("slices_of_one_granule", [
    compartment("a", [*HEAP, gate("b.f")], ["first", "second"], "first:", allocates(8), "csc ca0, 0(cgp)",
                "cmove cs0, ca0", "cmove cs1, ca0", calls("f"), "csw a0, 0(cs0)", "second: cmove cs0, cra",
                "clc ca1, 0(cgp)", frees(), "li a2, 255", "down: addi a2, a2, -1", "bnez a2, down", allocates(8), BACK,
                **QUOTA),
    compartment("b", [service("yield")], ["f"], "f: cmove cs0, cra", "cmove cs1, ca0", "cmove ca4, ca0",
                served("yield"), "csw a0, 0(ca4)")],
    [thread("a.first"), thread("a.second", "u")], 1000, allocated(7, 0, 0, 7, 1, 0x800005a8, 8, 16),
    called(16, 0, 0, 6, 14), freed(31, 1, 0, 7, 1, 0x800005a8, 8, 0), allocated(549, 1, 0, 7, 2, 0x800005a8, 8, 16),
    trap(553, 0, 1, 28, 2, 14), trap(554, 0, 0, 28, 2, 8),
    ended("finished", 554, calls=1, allocations=2, frees=1, traps=2), ram=SMALL, quantum=1000, version=2, sweep=1)
