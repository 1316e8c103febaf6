#!/usr/bin/env python3
"""Worked rows of keys and tokens: the routines token_key, token_new, token_open and token_free, with hostile callers,
and where a trap enters an error handler.

    tokens.py OUT      writes the cases that cases.py tells of

A key and a token are objects of the heap. A key is 8 bytes, so it takes 16 of its quota; a token of 24 bytes takes 32.
Of `app` entry 4 is the serial port, 12 the quota q, and 13 the next one. The key stands in cs1, a token in ca3.
"""
from cases import (DEVICES, QUOTA, SMALL, UART, allocated, called, case, compartment, ended, export, freed, gate, image,
                   lines, modelled, report, row, served, service, source, stored, thread, trap)

SERVICES = [service(name) for name in ("token_key", "token_new", "token_open", "token_free", "allocate", "free",
                                       "remaining")]
BEGIN = "main: cmove cs0, cra"
BACK = ["cmove cra, cs0", "cret"]
SHOW = ["cimport ct0, uart", "csw a0, 0(ct0)"]
KEPT = "cmove ca3, ca0"
ASK = "cimport ca0, q"
KEY = [ASK, served("token_key"), "cmove cs1, ca0"]


def flat(*parts):
    return [line for part in parts for line in ([part] if isinstance(part, str) else flat(*part))]


def makes(size, quota="q", key="cs1"):
    """The lines that make a token: nine steps, or ten where the size is above 2,047."""
    return [f"cimport ca0, {quota}", f"li a1, {size}", f"cmove ca2, {key}", *served("token_new")]


def opens(key="cs1", token="ca3"):
    """The lines that open a token: six steps."""
    return [f"cmove ca0, {key}", f"cmove ca1, {token}", *served("token_open")]


def frees(quota="q", key="cs1", token="ca3"):
    """The lines that free a token: eight steps."""
    return [f"cimport ca0, {quota}", f"cmove ca1, {key}", f"cmove ca2, {token}", *served("token_free")]


FREE = [ASK, *served("free")]
LEFT = [ASK, *served("remaining")]


def alone(name, text, *wanted, quotas=(("q", 200),), keys=(), **members):
    """One thread of one compartment with uart (entry 4), the services (5 to 11) and its quotas (from 12 on)."""
    row(name, [compartment("app", [UART, *SERVICES], ["main"], BEGIN, *flat(text), *BACK, globals=64, keys=list(keys),
                           quotas=[{"name": quota, "limit": limit} for quota, limit in quotas])],
        [thread("app.main")], 400, *wanted, **dict({"ram": SMALL}, **members))


def first(base, quota=12):
    """The key is the first object, made in step 7."""
    return allocated(7, 0, 0, quota, 1, base, 8, 16)


def answered(step, value):
    return stored(step, 0, 0, 4, value)


TWO = (("q", 200), ("q2", 200))

# ---- what the routines answer

# No quota; no key, of any size; size 0; no key, past the heap's length; past the quota; the token as its own key.
alone("refusals_of_token_new",
      [KEY, "li a0, 0", "li a1, 0", "li a2, 0", served("token_new"), SHOW, makes(0, key="cnull"), SHOW, makes(0), SHOW,
       makes(2000, key="cnull"), SHOW, makes(200), SHOW, makes(24), KEPT, makes(24, key="ca3"), SHOW],
      first(0x80000418), answered(18, -1), answered(29, -7), answered(40, -4), answered(51, -7), answered(62, -2),
      allocated(70, 0, 0, 12, 2, 0x80000428, 24, 48), answered(82, -7),
      ended("finished", 85, devices=6, allocations=2))

# No key; the token as key; no token; the key as token; another key; and what was opened isn't opened again.
alone("refusals_of_token_open",
      [KEY, makes(24), KEPT, opens("cnull", "cnull"), SHOW, opens("ca3", "ca3"), SHOW, opens("cs1", "cnull"), SHOW,
       opens("cs1", "cs1"), SHOW, ASK, served("token_key"), "cmove ca4, ca0", opens("ca4", "ca3"), SHOW, opens(), KEPT,
       opens(), SHOW],
      first(0x80000428), allocated(16, 0, 0, 12, 2, 0x80000438, 24, 48), answered(26, -7), answered(35, -7),
      answered(44, -8), answered(53, -8), allocated(59, 0, 0, 12, 3, 0x80000458, 8, 64), answered(69, -8),
      answered(85, -8), ended("finished", 88, devices=6, allocations=3))

# No quota; no key; no token; no token, by another quota; the token, by another quota; freed; once more; the key.
alone("refusals_of_token_free",
      [KEY, makes(24), KEPT, "li a0, 0", "li a1, 0", "li a2, 0", served("token_free"), SHOW, frees(key="cnull"), SHOW,
       frees(token="cnull"), SHOW, frees("q2", token="cnull"), SHOW, frees("q2"), SHOW, frees(), SHOW, frees(), SHOW,
       frees(token="cs1"), SHOW],
      first(0x80000478), allocated(16, 0, 0, 12, 2, 0x80000488, 24, 48), answered(27, -1), answered(38, -7),
      answered(49, -8), answered(60, -8), answered(71, -6),
      freed(79, 0, 0, 12, 2, 0x80000488, 24, 16), answered(82, 0),
      answered(93, -8), answered(104, -8),
      ended("finished", 107, ticks=1, devices=8, allocations=2, frees=1), quotas=TWO)

# A token of another quota than its key's is freed by its own.
alone("token_of_another_quota",
      [KEY, makes(24, "q2"), KEPT, frees(), SHOW, frees("q2"), SHOW],
      first(0x80000388), allocated(16, 0, 0, 13, 2, 0x80000398, 24, 32), answered(28, -6),
      freed(36, 0, 0, 13, 2, 0x80000398, 24, 0), answered(39, 0),
      ended("finished", 42, devices=2, allocations=2, frees=1), quotas=TWO)

# A key takes 16 bytes of its quota.
alone("no_room_for_a_key", [ASK, served("token_key"), SHOW], answered(10, -2),
      ended("finished", 13, devices=1), quotas=[("q", 15)])

# What is written through an opened token is there when it is opened again.
alone("contents_kept",
      [KEY, makes(24), KEPT, opens(), "li a4, 77", "csw a4, 8(ca0)", opens(), "clw a0, 8(ca0)", SHOW],
      first(0x80000378), allocated(16, 0, 0, 12, 2, 0x80000388, 24, 48), answered(35, 77),
      ended("finished", 38, devices=1, allocations=2))

# ---- objects

# Opened, a token is an object that its quota frees; then it is no token.
alone("opened_then_free",
      [KEY, makes(24), KEPT, opens(), "cmove ca1, ca0", FREE, SHOW, opens(), SHOW, frees(), SHOW],
      first(0x800003b8), allocated(16, 0, 0, 12, 2, 0x800003c8, 24, 48), freed(30, 0, 0, 12, 2, 0x800003c8, 24, 16),
      answered(33, 0), answered(42, -8), answered(53, -8), ended("finished", 56, devices=3, allocations=2, frees=1))

alone("opened_part_is_no_object",
      [KEY, makes(24), KEPT, opens(), "csetboundsimm ca1, ca0, 8", FREE, SHOW],
      first(0x80000368), allocated(16, 0, 0, 12, 2, 0x80000378, 24, 48), answered(33, -6),
      ended("finished", 36, devices=1, allocations=2))

# Neither free nor token_free frees a key; its place isn't the next object's.
alone("key_isnt_freed",
      [KEY, "cmove ca1, cs1", FREE, SHOW, frees(token="cs1"), SHOW, makes(8), SHOW],
      first(0x80000388), answered(18, -6), answered(29, -8), allocated(37, 0, 0, 12, 2, 0x80000398, 8, 32),
      answered(40, 0x80000398), ended("finished", 43, devices=3, allocations=2))

alone("remaining_of_tokens",
      [KEY, makes(24), KEPT, LEFT, SHOW, frees(), LEFT, SHOW],
      first(0x80000388), allocated(16, 0, 0, 12, 2, 0x80000398, 24, 48), answered(26, 152),
      freed(34, 0, 0, 12, 2, 0x80000398, 24, 16), answered(43, 184),
      ended("finished", 46, devices=2, allocations=2, frees=1))

# ---- hostile callers

# A token that was freed comes back from the globals without its tag.
alone("stale_token_from_globals",
      [KEY, makes(24), KEPT, "csc ca3, 0(cgp)", frees(), SHOW, "clc ca3, 0(cgp)", opens(), SHOW],
      first(0x80000388), allocated(16, 0, 0, 12, 2, 0x80000398, 24, 48), freed(26, 0, 0, 12, 2, 0x80000398, 24, 16),
      answered(29, 0), answered(39, -8), ended("finished", 42, devices=2, allocations=2, frees=1))

alone("token_used_sealed", [KEY, makes(24), "clw a1, 0(ca0)"],
      first(0x80000338), allocated(16, 0, 0, 12, 2, 0x80000348, 24, 48), trap(17, 0, 0, 28, 3, 10),
      ended("finished", 17, allocations=2, traps=1))

# An address or a permission of what is sealed doesn't change: the tag goes.
alone("token_moved_or_cut",
      [KEY, makes(24), KEPT, "cincaddrimm ca3, ca3, 0", opens(), SHOW, makes(24), "candperm ca3, ca0, a1", opens(),
       SHOW],
      first(0x80000398), allocated(16, 0, 0, 12, 2, 0x800003a8, 24, 48), answered(27, -8),
      allocated(35, 0, 0, 12, 3, 0x800003c8, 24, 80), answered(45, -8),
      ended("finished", 48, devices=2, allocations=3))

alone("hardware_key_opens_no_token",
      [KEY, makes(24), "cimport ca4, key13", "cunseal ca3, ca0, ca4", "clw a1, 0(ca3)"],
      first(0x80000348), allocated(16, 0, 0, 12, 2, 0x80000358, 24, 48), trap(20, 0, 0, 28, 2, 13),
      ended("finished", 20, allocations=2, traps=1), keys=[13])

# Key and token are loaded through globals without LG, so both lack GL. The token opens, to what is local: stored to
# the globals it has no tag there.
alone("local_token",
      [KEY, "csc cs1, 0(cgp)", makes(24), "csc ca0, 8(cgp)", "li a4, -3", "candperm ca5, cgp, a4", "clc cs1, 0(ca5)",
       "clc ca3, 8(ca5)", opens(), "csw a4, 0(ca0)", "csc ca0, 16(cgp)", "clc ca1, 16(cgp)", "clw a2, 0(ca1)"],
      first(0x80000368), allocated(17, 0, 0, 12, 2, 0x80000378, 24, 48), trap(32, 0, 0, 28, 2, 11),
      ended("finished", 32, allocations=2, traps=1))

alone("key_without_return", ["li ra, 0", "cimport ct2, token_key", "cjr ct2"], trap(6, 0, 0, 28, 2, 1),
      ended("finished", 6, traps=1))

# Without a device, and the token used sealed last.
row("token_of_tiny", [
    compartment("app", [service("token_key"), service("token_new"), service("token_open")], ["main"],
                f"main: {ASK}", served("token_key"), "cmove ca2, ca0", ASK, "li a1, 24", served("token_new"),
                "cmove ca1, ca0", "cmove ca4, ca0", "cmove ca0, ca2", served("token_open"), "clw a3, 0(ca0)",
                "clw a3, 0(ca4)", **QUOTA)],
    [thread("app.main")], 100, allocated(6, 0, 0, 7, 1, 0x800002e8, 8, 16),
    allocated(14, 0, 0, 7, 2, 0x800002f8, 24, 48), trap(23, 0, 0, 28, 3, 14),
    ended("finished", 23, allocations=2, traps=1), ram=SMALL, devices=[])

# ---- places, and sweeps

# A place is a token's again when a sweep has passed, slice by slice.
alone("new_waits_for_a_sweep",
      [KEY, makes(40), KEPT, makes(40), SHOW, frees(), makes(40), SHOW],
      first(0x80000398), allocated(16, 0, 0, 12, 2, 0x800003a8, 40, 64),
      allocated(25, 0, 0, 12, 3, 0x800003d8, 40, 112), answered(28, 0x800003d8),
      freed(36, 0, 0, 12, 2, 0x800003a8, 40, 64),
      allocated(44, 0, 0, 12, 4, 0x800003a8, 40, 112), answered(47, 0x800003a8),
      ended("finished", 50, devices=2, allocations=4, frees=1), quotas=[("q", 2000)])

# No place for good, and none yet; a key has one.
alone("full_now_and_full_for_good",
      [KEY, makes(240), KEPT, makes(240), SHOW, frees(), makes(240), SHOW, ASK, served("token_key"), SHOW],
      first(0x800003b8), allocated(16, 0, 0, 12, 2, 0x800003c8, 240, 264), answered(28, -3),
      freed(36, 0, 0, 12, 2, 0x800003c8, 240, 16), answered(47, -5), allocated(53, 0, 0, 12, 3, 0x800004c0, 8, 32),
      answered(56, 0x800004c0), ended("finished", 59, devices=3, allocations=3, frees=1),
      quotas=[("q", 4000)], version=2, sweep=1, ram=dict(SMALL, size=1280))

# A sweep has passed all of RAM: a token stands in the place of one that was freed, whose pointer opens nothing.
alone("token_in_the_place_of_another",
      [KEY, makes(24), KEPT, "csc ca3, 0(cgp)", frees(), makes(24), SHOW, "clc ca3, 0(cgp)", opens(), SHOW],
      first(0x80000398), allocated(16, 0, 0, 12, 2, 0x800003a8, 24, 48), freed(26, 0, 0, 12, 2, 0x800003a8, 24, 16),
      allocated(34, 0, 0, 12, 3, 0x800003a8, 24, 48), answered(37, 0x800003a8), answered(47, -8),
      ended("finished", 50, devices=2, allocations=3, frees=1), version=2, sweep=65536)

# ---- two compartments

CALL = ["cimport ct1, give", *served("switch")]
GIVEN = ["cmove ca0, cs1", "cmove ca1, ca3", *CALL]  # key and token are the arguments
BOX = {"as": "box", "shared": "box", "rights": "RWC"}


def pair(name, a_lines, b_lines, *wanted, passes="capabilities", args=2, shared=False):
    """`a`, with uart (entry 4), calls b.give (5). Each has the services and a quota q of 200 (13, 25 without box)."""
    box = [BOX] if shared else []
    quota = {"quotas": [{"name": "q", "limit": 200}], "globals": 64}
    row(name, [compartment("a", [UART, gate("b.give"), *box, *SERVICES], ["main"], BEGIN, *flat(a_lines), *BACK,
                           **quota),
               compartment("b", [*box, *SERVICES], [export("give", stack=64, args=args, passes=passes)],
                           "give: cmove cs0, cra", *flat(b_lines), *BACK, **quota)],
        [thread("a.main", stack=1024, frames=3)], 400, *wanted, ram=dict(SMALL, size=8192),
        **({"shared": [{"name": "box", "size": 64}]} if shared else {}))


A_KEY = [ASK, served("token_key")]

# A key that b made on its own quota makes and opens a's tokens, where it came as a capability.
pair("key_of_another_compartment",
     [CALL, "cmove cs1, ca0", makes(24), KEPT, opens(), "li a4, 5", "csw a4, 0(ca0)", "clw a0, 0(ca0)", SHOW], A_KEY,
     called(7, 0, 0, 5, 26), allocated(14, 0, 1, 25, 1, 0x80000778, 8, 16),
     allocated(26, 0, 0, 13, 2, 0x80000788, 24, 32), answered(39, 5),
     ended("finished", 42, calls=1, devices=1, allocations=2))
pair("key_by_a_data_call", [CALL, "cmove cs1, ca0", makes(24), SHOW], A_KEY,
     called(7, 0, 0, 5, 26), allocated(14, 0, 1, 25, 1, 0x80000758, 8, 16), answered(29, -7),
     ended("finished", 32, calls=1, devices=1, allocations=1), passes="data")

# b opens what a gives it, key and token, whoever made them.
pair("token_of_the_caller", [KEY, makes(24), KEPT, GIVEN, SHOW],
     [served("token_open"), "li a4, 9", "csw a4, 0(ca0)", "li a0, 3"],
     first(0x80000778, quota=13), allocated(16, 0, 0, 13, 2, 0x80000788, 24, 48),
     called(25, 0, 0, 5, 26), answered(39, 3),
     ended("finished", 42, calls=1, devices=1, allocations=2))
pair("token_by_a_data_call", [KEY, makes(24), KEPT, GIVEN, SHOW], served("token_open"),
     first(0x80000768, quota=13), allocated(16, 0, 0, 13, 2, 0x80000778, 24, 48),
     called(25, 0, 0, 5, 26), answered(36, -7),
     ended("finished", 39, calls=1, devices=1, allocations=2), passes="data")
pair("token_freed_by_another_quota", [KEY, makes(24), KEPT, GIVEN, SHOW, "cmove ca0, cs1"],
     ["cmove ca2, ca1", "cmove ca1, ca0", ASK, served("token_free")],
     first(0x80000778, quota=13), allocated(16, 0, 0, 13, 2, 0x80000788, 24, 48),
     called(25, 0, 0, 5, 26), answered(40, -6),
     ended("finished", 44, calls=1, devices=1, allocations=2))

# Through a shared object b gets both, and opens the token that a wrote through.
pair("token_through_a_shared_object",
     [KEY, makes(24), KEPT, "cimport ca4, box", "csc ca3, 0(ca4)", "csc cs1, 8(ca4)", opens(), "li a4, 9",
      "csw a4, 0(ca0)", CALL, SHOW],
     ["cimport ca4, box", "clc ca1, 0(ca4)", "clc ca0, 8(ca4)", served("token_open"), "clw a0, 0(ca0)"],
     first(0x800007e8, quota=14), allocated(16, 0, 0, 14, 2, 0x800007f8, 24, 48),
     called(35, 0, 0, 5, 28), answered(51, 9),
     ended("finished", 54, calls=1, devices=1, allocations=2), shared=True)

# b frees a's token by a's quota: at the return the token in a's cs1 has lost its tag.
pair("token_freed_by_a_callee",
     [KEY, makes(24), "cmove ca1, ca0", "cmove ca0, cs1", "cmove cs1, ca1", "cmove ca2, ca0", "cimport ca3, q",
      "csc ca0, 0(cgp)", "cmove ca4, ca1", "cmove ca0, ca0", CALL, SHOW, "clc ca0, 0(cgp)", "cmove ca1, cs1",
      served("token_open"), SHOW],
     ["cmove ca1, ca2", "cmove ca2, ca4", "cmove ca0, ca3", served("token_free")],
     first(0x800007a8, quota=13), allocated(16, 0, 0, 13, 2, 0x800007b8, 24, 48), called(31, 0, 0, 5, 26),
     freed(39, 0, 1, 13, 2, 0x800007b8, 24, 16), answered(45, 0), answered(54, -8),
     ended("finished", 57, calls=1, devices=2, allocations=2, frees=1), args=6)

# ---- with error handlers

HANDLER = export("handler", at="h")
KEEP = ["csc cs1, 0(cgp)", "csc ca0, 8(cgp)"]  # key and token, before a trap
TAKE = ["h: cmove cs0, cra", "clc cs1, 0(cgp)", "clc ca3, 8(cgp)"]  # six steps with the trap's own and BACK


def handled(name, text, handler, *wanted, **members):
    """As `alone`, in a compartment with an error handler."""
    row(name, [compartment("app", [UART, *SERVICES], ["main", HANDLER], *flat(BEGIN, text, BACK, handler, BACK),
                           globals=64, quotas=[{"name": "q", "limit": 200}])],
        [thread("app.main")], 400, *wanted, **dict({"ram": SMALL}, **members))


handled("opened_in_a_handler",
        [KEY, makes(24), KEEP, KEPT, opens(), "li a4, 77", "csw a4, 0(ca0)", "ebreak"],
        [TAKE, opens(), "clw a0, 0(ca0)", SHOW],
        first(0x800003a8), allocated(16, 0, 0, 12, 2, 0x800003b8, 24, 48), trap(28, 0, 0, 3), answered(41, 77),
        ended("finished", 44, devices=1, allocations=2, traps=1))
handled("freed_in_a_handler", [KEY, makes(24), KEEP, "ebreak"], [TAKE, frees(), SHOW, opens(), SHOW],
        first(0x800003a8), allocated(16, 0, 0, 12, 2, 0x800003b8, 24, 48), trap(19, 0, 0, 3),
        freed(30, 0, 0, 12, 2, 0x800003b8, 24, 16), answered(33, 0), answered(42, -8),
        ended("finished", 45, devices=2, allocations=2, frees=1, traps=1))
handled("sealed_token_used_is_handled",
        [KEY, makes(24), KEEP, "clw a1, 0(ca0)"],
        [TAKE, "cimport ct0, uart", "csw a1, 0(ct0)", "csw a2, 0(ct0)", opens(), SHOW],
        first(0x80000388), allocated(16, 0, 0, 12, 2, 0x80000398, 24, 48), trap(19, 0, 0, 28, 3, 10),
        answered(25, 3), answered(26, 10), answered(35, 0x80000398),
        ended("finished", 38, devices=3, allocations=2, traps=1))
handled("handler_begins_without_token",
        [KEY, makes(24), KEPT, "cmove cs0, ca0", "ebreak"],
        ["h: cimport ct0, uart", [part for register in ("s0", "s1", "a0", "a3") for part in (
            f"cgettag a4, c{register}", "csw a4, 0(ct0)")], "cret"],
        first(0x80000378), allocated(16, 0, 0, 12, 2, 0x80000388, 24, 48), trap(19, 0, 0, 3),
        *[answered(step, 0) for step in (23, 25, 27, 29)],
        ended("finished", 31, devices=4, allocations=2, traps=1))
handled("token_under_the_record",
        [KEY, makes(24), KEEP, "csc ca0, -8(csp)", "csc ca0, -24(csp)", "cincaddrimm csp, csp, -16", "ebreak"],
        [TAKE, "clc ca3, 72(csp)", opens(), SHOW, "clc ca3, 88(csp)", opens(), SHOW],
        first(0x800003b8), allocated(16, 0, 0, 12, 2, 0x800003c8, 24, 48), trap(22, 0, 0, 3), answered(35, -8),
        answered(45, 0x800003c8), ended("finished", 48, devices=2, allocations=2, traps=1))
# Each of the four traps at its own entry, which the record has.
for number, name in enumerate(("token_key", "token_new", "token_open", "token_free"), 9):
    handled(f"{name}_without_a_way_back",
            [f"cimport ct2, {name}", "li ra, 0", "cjr ct2"], ["h: cmove cs0, cra", "clw a0, 64(csp)", SHOW],
            trap(6, 0, 0, 28, 2, 1), answered(11, 0x10000 + 16 * number), ended("finished", 14, devices=1, traps=1))
# A sweep has passed: the place of the token that the handler freed is another's, and no copy of it opens.
handled("swept_in_a_handler",
        [KEY, makes(24), KEEP, "ebreak"], [TAKE, frees(), makes(24), SHOW, "clc ca3, 8(cgp)", opens(), SHOW],
        first(0x800003c8), allocated(16, 0, 0, 12, 2, 0x800003d8, 24, 48), trap(19, 0, 0, 3),
        freed(30, 0, 0, 12, 2, 0x800003d8, 24, 16), allocated(38, 0, 0, 12, 3, 0x800003d8, 24, 48),
        answered(41, 0x800003d8), answered(51, -8),
        ended("finished", 54, devices=2, allocations=3, frees=1, traps=1), version=2, sweep=65536)


def trapping(name, a_lines, b_lines, handler, *wanted):
    """`a`, which has no error handler, calls b.give (5, itself 27), which traps. Their quotas are 13 and 26."""
    row(name, [compartment("a", [UART, gate("b.give"), *SERVICES], ["main"], BEGIN, *flat(a_lines), *BACK,
                           quotas=[{"name": "q", "limit": 200}], globals=64),
               compartment("b", [UART, *SERVICES], [export("give", stack=112, args=4, passes="capabilities")]
                           + ([HANDLER] if handler else []), "give: cmove cs0, cra", *flat(b_lines), *flat(handler),
                           globals=64, quotas=[{"name": "q", "limit": 200}])],
        [thread("a.main", stack=1024, frames=3)], 400, *wanted, ram=dict(SMALL, size=8192))


# What a callee opened goes with its frame, and the token is its maker's as before: it opens, and its charge stays.
trapping("callee_traps_with_a_token",
         [KEY, makes(24), KEPT, KEEP, GIVEN, SHOW, "clc ca3, 8(cgp)", opens(), SHOW, LEFT, SHOW],
         [served("token_open"), "cmove cs1, ca0", "li a4, 9", "csw a4, 0(ca0)", "ebreak"], [],
         first(0x800007b8, quota=13), allocated(16, 0, 0, 13, 2, 0x800007c8, 24, 48), called(27, 0, 0, 5, 27),
         trap(36, 0, 1, 3), answered(39, -1), answered(49, 0x800007c8), answered(58, 152),
         ended("finished", 61, calls=1, devices=3, allocations=2, traps=1))
# What its handler answers with is a number, also of a token.
trapping("handler_answers_a_token",
         [KEY, makes(24), KEPT, GIVEN, "cgettag a4, ca0", SHOW, "csw a4, 0(ct0)", "cmove ca3, ca0", opens(), SHOW],
         ["csc ca1, 8(cgp)", "ebreak"], ["h: clc ca1, 8(cgp)", "li a0, 1", "cret"],
         first(0x800007a8, quota=13), allocated(16, 0, 0, 13, 2, 0x800007b8, 24, 48), called(25, 0, 0, 5, 27),
         trap(28, 0, 1, 3), answered(36, 0x800007b8), answered(37, 0), answered(47, -8),
         ended("finished", 50, calls=1, devices=3, allocations=2, traps=1))
# Its handler frees the caller's token by the caller's quota: at the frame's end the token in a's cs1 has lost its tag.
trapping("handler_of_a_callee_frees",
         [KEY, makes(24), "csc cs1, 0(cgp)", "cmove ca1, ca0", "cmove ca0, cs1", "cmove cs1, ca1", "cimport ca2, q",
          CALL, SHOW, "clc ca0, 0(cgp)", "cmove ca1, cs1", served("token_open"), SHOW],
         ["csc ca0, 0(cgp)", "csc ca1, 8(cgp)", "csc ca2, 16(cgp)", "ebreak"],
         [TAKE, "clc ca0, 16(cgp)", "cmove ca1, cs1", "cmove ca2, ca3", served("token_free"), "cmove ca1, ca0",
          "li a0, 1", BACK],
         first(0x800007d8, quota=13), allocated(16, 0, 0, 13, 2, 0x800007e8, 24, 48), called(28, 0, 0, 5, 27),
         trap(33, 0, 1, 3), freed(43, 0, 1, 13, 2, 0x800007e8, 24, 16), answered(51, 0), answered(60, -8),
         ended("finished", 63, calls=1, devices=2, allocations=2, frees=1, traps=1))
# A handler makes a key and a token, and traps: the frame is unwound, both stay, and the next call opens the token.
trapping("handler_makes_and_traps",
         [CALL, SHOW, CALL, SHOW],
         ["clw a0, 16(cgp)", "bnez a0, again", "li a0, 1", "csw a0, 16(cgp)", "ebreak", "again: clc cs1, 0(cgp)",
          "clc ca3, 8(cgp)", opens(), BACK],
         ["h: cmove cs0, cra", KEY, makes(24), KEEP, "ebreak"],
         called(7, 0, 0, 5, 27), trap(13, 0, 1, 3), allocated(20, 0, 1, 26, 1, 0x800007c8, 8, 16),
         allocated(29, 0, 1, 26, 2, 0x800007d8, 24, 48), trap(32, 0, 1, 3), answered(35, -1), called(41, 0, 0, 5, 27),
         answered(58, 0x800007d8), ended("finished", 61, calls=2, devices=2, allocations=2, traps=2))

# ---- images

# By its image it runs so too, and so does the same image in the last version of the format, which has 64 for a sweep.
both = {"firmware": "both", "ram": SMALL, "devices": DEVICES, "threads": [thread("app.main")], "compartments": [
    compartment("app", [UART, *SERVICES], ["main", HANDLER], globals=64, quotas=[{"name": "q", "limit": 200}])]}
both["compartments"][0]["code"] = source(
    "both.s", flat(BEGIN, KEY, makes(24), KEEP, "clw a1, 0(ca0)", BACK, TAKE, opens(), SHOW, BACK))
first_version = image(both)
last_version = first_version[:4] + b"\2\0\0\0" + first_version[8:52] + b"\x40\0\0\0" + first_version[52:]
told = [first(0x80000378), allocated(16, 0, 0, 12, 2, 0x80000388, 24, 48), trap(19, 0, 0, 28, 3, 10),
        answered(31, 0x80000388), ended("finished", 34, devices=1, allocations=2, traps=1)]
case("upgrade_of_both", ["upgrade", "{}"], first_version, last_version)
for version, data in ((1, first_version), (2, last_version)):
    assert modelled(data, 400) == told
    case(f"both_image_{version}", ["runimage", "{}", "400"], data, lines(report(both), *told))
