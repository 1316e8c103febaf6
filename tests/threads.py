#!/usr/bin/env python3
"""Worked rows of threads: turns, ticks, the scheduler's services yield, sleep, wait and wake, and the links of all.

    threads.py OUT     writes the cases that cases.py tells of

Steps count from 1; a routine is one, and so is a step in which no thread runs. A tick comes before a step where the
steps before it are a multiple of the quantum.
"""
import copy

from cases import (UART, compartment, ended, export, gate, off, row, run, sample, served, service, stored, thread, trap)

TINY = sample("tiny")
BACK = ["cmove cra, cs0", "cret"]
PORT = "cimport cs1, uart"


def shows(*registers):
    """Stores each register at the port that cs1 holds."""
    return [f"csw {register}, 0(cs1)" for register in registers]


def twins(*priorities, **members):
    """Threads of these priorities with the smallest sample's code: two steps for the slot, li, csw, cret, return."""
    rows = [dict(TINY["threads"][0], name=f"t{n}", priority=priority) for n, priority in enumerate(priorities)]
    return dict(copy.deepcopy(TINY), ram={"base": 0x80000000, "size": 16384}, threads=rows, **members)


# ---- turns

run("two_at_3", twins(1, 1, quantum=3), 100, stored(7, 0, 0, 4, 65), stored(10, 1, 0, 4, 65),
    ended("finished", 12, ticks=3, devices=2))
# A tick stops the thread, and the one of greater priority is picked again.
run("greater_priority", twins(1, 2, quantum=2), 100, stored(4, 1, 0, 4, 65), stored(10, 0, 0, 4, 65),
    ended("finished", 12, ticks=5, devices=2))
# Sixteen threads with two steps each a turn.
run("sixteen", twins(*[1] * 16, quantum=2), 200, *[stored(34 + 2 * n, n, 0, 4, 65) for n in range(16)],
    ended("finished", 96, ticks=47, devices=16))

# Sixty-four, which the second version of the format has.
run("sixty_four", dict(twins(*[1] * 64, quantum=2, version=2), ram={"base": 0x80000000, "size": 65536}), 400,
    *[stored(130 + 2 * n, n, 0, 4, 65) for n in range(64)], ended("finished", 384, ticks=191, devices=64))

# Two threads that show their number, yield and show it again: of one priority in turns, else one after the other.
TURNS = ["one: cmove cs0, cra", "li a2, 1", "j body", "two: cmove cs0, cra", "li a2, 2", "body: cimport ct0, uart",
         "csw a2, 0(ct0)", *served("yield"), "csw a2, 0(ct0)", *BACK]
for name, priority, steps in (("yield_in_turns", 1, ((6, 0), (15, 1), (20, 0), (24, 1))),
                              ("yield_alone", 2, ((6, 0), (11, 0), (19, 1), (24, 1)))):
    row(name, [compartment("a", [UART, service("yield")], ["one", "two"], *TURNS)],
        [thread("a.one", priority=priority), thread("a.two", "u")], 100,
        *[stored(step, t, 0, 4, t + 1) for step, t in steps], ended("finished", 27, devices=4))

# A yield by the thread's own way back: when it goes on, it ends.
row("yield_and_end", [compartment("a", [service("yield")], ["main"], "main: cimport ct2, yield", "cjr ct2")],
    [thread("a.main")], 100, ended("finished", 5))

# A service answers in c10 and c11 and keeps the other registers.
row("registers_kept", [
    compartment("a", [UART, service("yield")], ["main"], "main: cmove cs0, cra", PORT, "li tp, 4", "li t0, 5",
                "li t1, 6", "li a0, 1", "li a1, 1", "li a2, 12", "li a5, 15", served("yield"),
                shows("tp", "t0", "t1", "a0", "a1", "a2", "a5"), BACK)],
    [thread("a.main")], 100,
    *[stored(15 + n, 0, 0, 4, value) for n, value in enumerate([4, 5, 6, 0, 0, 12, 15])],
    ended("finished", 24, devices=7))

# ---- ticks and interrupts

LATER = ["other: li a0, 1", "cimport ct0, uart", "csw a0, 0(ct0)", "cret"]
GUARD = [{"name": "guard", "code": {"lines": ["crit: nop", "nop", "cret"]},
          "exports": [export("crit", posture="disabled")]}]

# The tick before step 6 finds interrupts off; the thread stops at step 8, after the library has returned.
row("tick_while_off", [
    compartment("a", [{"as": "crit", "library": "guard.crit"}, UART], ["main", "other"], "main: cmove cs0, cra",
                "cimport ct2, crit", "cjalr cra, ct2", BACK, LATER)],
    [thread("a.main"), thread("a.other", "u")], 100, off(4, 0, 0, 9), stored(14, 1, 0, 5, 1),
    ended("finished", 16, ticks=3, devices=1), quantum=5, libraries=copy.deepcopy(GUARD))

# The same tick where the thread yields with interrupts off: the next one makes one step, and then it stops for it.
row("tick_for_the_next", [
    compartment("a", [UART, service("yield")], [export("main", posture="disabled"), "other"], "main: cmove cs0, cra",
                "nop", "nop", served("yield"), BACK, LATER)],
    [thread("a.main"), thread("a.other", "u")], 100, off(1, 0, 0, 6), off(9, 0, 0, 6), stored(13, 1, 0, 4, 1),
    ended("finished", 16, ticks=3, devices=1), quantum=5)

# A thread that yields with interrupts off has them off again when it is picked: a span of its own.
row("yield_while_off", [
    compartment("a", [service("yield")], [export("main", posture="disabled")], "main: cmove cs0, cra", served("yield"),
                BACK)],
    [thread("a.main")], 100, off(1, 0, 0, 5), off(6, 0, 0, 5), ended("finished", 8))

# ---- sleep

CLOCK = [{"name": "uart0", "kind": "uart", "base": 0x10000000}, {"name": "clock", "kind": "timer", "base": 0x10000010}]


def sleeper(name, ticks, limit, *wanted, quantum=10):
    """Sleeps in step 6; then it reads the clock, four steps on, and shows c10."""
    row(name, [compartment("a", [UART, {"as": "clock", "device": "clock", "rights": "R"}, service("sleep")], ["main"],
                           "main: cmove cs0, cra", f"li a0, {ticks}", served("sleep"), "cimport cs1, clock",
                           "clw a1, 0(cs1)", PORT, shows("a0"), BACK)],
        [thread("a.main")], limit, *wanted, devices=CLOCK, quantum=quantum)


def woke(step, time):
    return f"{step + 2} load t0 c0 e5 10000010 4 {time:08x}", stored(step + 5, 0, 0, 4, 0)


sleeper("sleep_0", 0, 100, *woke(7, 0), ended("finished", 15, ticks=1, devices=2))
sleeper("sleep_1", 1, 100, *woke(11, 1), ended("finished", 19, ticks=1, devices=2))
sleeper("sleep_3", 3, 100, *woke(31, 3), ended("finished", 39, ticks=3, devices=2))
# The tick comes right after the step that sleeps.
sleeper("sleep_to_the_next_tick", 1, 100, *woke(7, 1), ended("finished", 15, ticks=2, devices=2), quantum=6)
# Who sleeps is neither at the end nor waiting.
sleeper("sleep_for_long", 1000, 50, ended("limit", 50, ticks=4))

# The sleeper of greater priority goes on at the tick before step 11, in place of one that never stops.
row("sleeper_first", [
    compartment("a", [UART, service("sleep")], ["main", "spin"], "main: cmove cs0, cra", "li a0, 1", served("sleep"),
                PORT, shows("a0"), BACK, "spin: j spin")],
    [thread("a.main", priority=2), thread("a.spin", "u")], 20, stored(13, 0, 0, 4, 0),
    ended("limit", 20, ticks=1, devices=1), quantum=10)

# Two threads of one priority take turns, and one of lower priority runs while both sleep; the one that woke first goes
# on until the tick at which the other wakes, and when both have ended the third goes on.
row("three_take_turns", [
    compartment("a", [UART, service("yield"), service("sleep")], ["low", "one", "two"],
                "low: cmove cs0, cra", PORT, "li a2, 3", shows("a2"), "spin: j spin",
                "one: cmove cs0, cra", PORT, "li a2, 1", shows("a2"), served("yield"), shows("a2"), "li a0, 1",
                served("sleep"), shows("a2"), "li a3, 19", "loop: addi a3, a3, -1", "bnez a3, loop", BACK,
                "two: cmove cs0, cra", PORT, "li a2, 2", shows("a2"), served("yield"), shows("a2"), "li a0, 2",
                served("sleep"), shows("a2"), BACK)],
    [thread("a.low"), thread("a.one", "u", priority=2), thread("a.two", "v", priority=2)], 90,
    *[stored(step, t, 0, 4, t or 3) for step, t in ((5, 1), (14, 2), (19, 1), (25, 2), (35, 0), (41, 1), (81, 2))],
    ended("limit", 90, ticks=2, devices=7), quantum=40)

# ---- wait and wake

WAITS = ["waits: cmove cs0, cra", "cmove ca0, cgp", "li a1, 0", *served("wait"), PORT, *shows("a0"), *BACK]


def wakes(count, at=0):
    """Wakes so many of those that wait for a word of the globals, and shows the answer: eight steps."""
    return [f"cincaddrimm ca0, cgp, {at}", f"li a1, {count}", *served("wake"), *shows("a0")]


def waiting(name, code, threads, limit, *wanted, **members):
    """A compartment with uart (entry 4), wait, wake and yield, and exports from entry 8 on."""
    row(name, [compartment("a", [UART, service("wait"), service("wake"), service("yield")], ["waits", "wakes"], WAITS,
                           *code)], threads, limit, *wanted, **members)


# The word holds another value: -21, and c11 is zero.
row("wait_that_differs", [
    compartment("a", [UART, service("wait")], ["main"], "main: cmove cs0, cra", "cmove ca0, cgp", "li a1, 1",
                served("wait"), PORT, shows("a0", "a1"), BACK)],
    [thread("a.main")], 100, stored(10, 0, 0, 4, -21), stored(11, 0, 0, 4, 0), ended("finished", 14, devices=2))

# Nobody is there to wake it, also where LIMIT ends with the step that waits.
for name, limit, kind in ("idle", 100, "idle"), ("idle_at_the_limit", 6, "idle"), ("idle_after_the_limit", 5, "limit"):
    row(name, [compartment("app", [service("wait")], ["main"], "main: cmove ca0, cgp", "li a1, 0", served("wait"))],
        [thread("app.main")], limit, ended(kind, min(limit, 6)), devices=[])

# A store alone wakes nobody; the other thread has ended.
waiting("stored_and_not_woken", ["wakes: li a0, 1", "csw a0, 0(cgp)", "cret"],
        [thread("a.waits", priority=2), thread("a.wakes", "u")], 100, ended("idle", 11))

# Of three that wait none is woken, then two, then what is left: those with the lowest numbers. Who wakes goes on until
# it yields, though they come before it.
WAITERS = [thread("a.waits", f"w{n}", priority=2) for n in range(15)]
waiting("wake_by_counts", ["wakes: cmove cs0, cra", PORT, wakes(0), wakes(2), served("yield"), wakes(5), BACK],
        WAITERS[:3] + [thread("a.wakes", "k")], 100, stored(31, 3, 0, 4, 0), stored(38, 3, 0, 4, 2),
        stored(45, 0, 0, 4, 0), stored(51, 1, 0, 4, 0), stored(61, 3, 0, 4, 1), stored(67, 2, 0, 4, 0),
        ended("finished", 70, devices=6))

# A word that nobody waits for; then the one that somebody does.
waiting("wake_of_another_word", ["wakes: cmove cs0, cra", PORT, wakes(1, 4), wakes(1), BACK],
        WAITERS[:1] + [thread("a.wakes", "k")], 100, stored(17, 1, 0, 4, 0), stored(24, 1, 0, 4, 1),
        stored(30, 0, 0, 4, 0), ended("finished", 33, devices=3))

# One waits: it is woken once.
waiting("wake_twice", ["wakes: cmove cs0, cra", PORT, wakes(1), wakes(1), BACK],
        WAITERS[:1] + [thread("a.wakes", "k")], 100, stored(17, 1, 0, 4, 1), stored(24, 1, 0, 4, 0),
        stored(30, 0, 0, 4, 0), ended("finished", 33, devices=3))

# Fifteen wait: four are woken, then all the others, by a count of 2^32 - 1.
waiting("sixteen_wait", ["wakes: cmove cs0, cra", PORT, wakes(4), wakes(-1), BACK],
        WAITERS + [thread("a.wakes", "k")], 300, stored(115, 15, 0, 4, 4), stored(122, 15, 0, 4, 11),
        *[stored(128 + 6 * n, n, 0, 4, 0) for n in range(15)], ended("finished", 215, devices=17), quantum=1000)

# Two compartments share a word. One thread waits for it in a frame of `a`, where it was called by `b`.
BOX = {"as": "box", "shared": "box", "rights": "RW"}
row("woken_across", [
    compartment("a", [BOX, UART, service("wait")], ["main"], "main: cmove cs0, cra", "cimport ca0, box", "li a1, 0",
                served("wait"), "cimport ct0, box", "clw a1, 0(ct0)", PORT, shows("a0", "a1"), BACK),
    compartment("b", [BOX, UART, service("wake"), gate("a.main")], ["first", "second"], "first: cmove cs0, cra",
                "cimport ct1, main", "cimport ct2, switch", "cjalr cra, ct2", BACK, "second: cmove cs0, cra",
                "cimport ca0, box", "li a1, 7", "csw a1, 0(ca0)", "li a1, 1", served("wake"), PORT, shows("a0"), BACK)],
    [thread("b.first"), thread("b.second", "u")], 100, "7 call t0 c1 e14 e7", stored(28, 1, 1, 12, 1),
    stored(37, 0, 0, 5, 0), stored(38, 0, 0, 5, 7), ended("finished", 44, calls=1, devices=3),
    shared=[{"name": "box", "size": 16}])

# ---- services that fail a check

CHECKED = [gate("a.main"), UART, {"as": "in", "device": "uart0", "rights": "R"},
           {"as": "box", "shared": "box", "rights": "W"}]


def refused(name, routine, wanted, *text):
    """A service that traps in the thread's first frame."""
    row(f"{routine}_{name}", [
        compartment("a", [*CHECKED, service(routine)], ["main"], "main: " + text[0], *text[1:],
                    quotas=[{"name": "q", "limit": 64}])],
        [thread("a.main")], 100, trap(wanted[0], 0, 0, *wanted[1:]), ended("finished", wanted[0], traps=1),
        shared=[{"name": "box", "size": 16}])


for routine in ("yield", "sleep", "wait", "wake", "allocate", "free", "remaining"):
    jump = [f"cimport ct2, {routine}", "cjr ct2"]
    refused("without_a_link", routine, (5, 28, 2, 1), "ccleartag cra, cra", *jump)
    refused("by_globals", routine, (5, 28, 3, 1), "cmove cra, cgp", *jump)
    refused("by_a_forward_link", routine, (5, 28, 3, 1), jump[0], "cmove cra, ct2", "cjr ct2")
for routine in ("wait", "wake"):
    refused("of_a_number", routine, (5, 28, 2, 10), "cgetaddr a0, cgp", *served(routine))
    refused("of_an_export", routine, (6, 28, 3, 10), "cimport ca0, main", *served(routine))
    refused("of_a_quota", routine, (6, 28, 3, 10), "cimport ca0, q", *served(routine))
    refused("without_the_right", routine, (6, 28, 18, 10), "cimport ca0, box", *served(routine))
    refused("at_a_device", routine, (6, 28, 1, 10), "cimport ca0, in", *served(routine))
    refused("past_the_end", routine, (5, 28, 1, 10), "cincaddrimm ca0, cgp, 16", *served(routine))
    refused("across_the_end", routine, (5, 28, 1, 10), "cincaddrimm ca0, cgp, 13", *served(routine))
    refused("not_aligned", routine, (5, 4), "cincaddrimm ca0, cgp, 2", *served(routine))
