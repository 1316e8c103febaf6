#!/usr/bin/env python3
"""Worked rows of scripts: bytes that come to devices before steps, and texts that are no script.

    scripts.py OUT     writes the cases that cases.py tells of

A load of a port's first register takes the first byte that waits there, 0 where none does, and one of its second tells
how many wait. A byte comes before its step: a load in that step finds it, and one in the step before doesn't.
"""
import json

from cases import (case, compartment, ended, image, lines, modelled, report, sample, served, service, source,
                   stored_file, thread)

TINY = sample("tiny")
UART = {"name": "uart0", "kind": "uart", "base": 0x10000000}
TIMER = {"name": "clock", "kind": "timer", "base": 0x10000010}
PINS = {"name": "pins", "kind": "gpio", "base": 0x10000020}


def firmware(name, text, devices, services=(), **members):
    """One compartment with every device and these services, whose code is these lines after the slots of both."""
    imports = [{"as": d["name"], "device": d["name"], "rights": "RW"} for d in devices]
    row = compartment("app", [*imports, *map(service, services)], ["main"], *text)
    row["code"] = source(f"code_{name}.s", row["code"]["lines"])
    return dict({"firmware": name, "ram": {"base": 0x80000000, "size": 4096}, "devices": devices, "compartments": [row],
                 "threads": [thread("app.main")]}, **members)


# Entry 1 is the compartment's code, 2 its globals and 3 the switcher's slot; the devices' slots follow.
def loaded(step, address, value, entry=4):
    return f"{step} load t0 c0 e{entry} {address:08x} 4 {value:08x}"


def run(name, text, devices, limit, script, *wanted, **members):
    """A run by a script, of the description and of its image."""
    whole = firmware(name, text, devices, **members)
    found = modelled(image(whole), limit, script)
    assert found == list(wanted), "\n".join([name, "found:", *found, "wanted:", *wanted])
    file = stored_file(name + ".script", script)
    case(name, ["run", "{}", str(limit), file], json.dumps(whole), lines(report(whole), *wanted))
    case(name + "_image", ["runimage", "{}", str(limit), file], image(whole), lines(report(whole), *wanted))


# ---- bytes and their steps

# Two steps for the slot, and then loads from step 3 on.
PORT = "main: cimport ct0, uart0"


def loads(count):
    return [PORT, *["clw a0, 0(ct0)"] * count, "cret"]


run("input", loads(1), [UART], 100, "2 uart0 65\n", loaded(3, 0x10000000, 65), ended("finished", 5, devices=1))
run("input_in_the_step", loads(1), [UART], 100, "3 uart0 65\n", loaded(3, 0x10000000, 65),
    ended("finished", 5, devices=1))
run("input_too_late", loads(1), [UART], 100, "4 uart0 65\n", loaded(3, 0x10000000, 0),
    ended("finished", 5, devices=1))
run("input_past_the_end", loads(1), [UART], 100, "6 uart0 65\n4000000000 uart0 1\n", loaded(3, 0x10000000, 0),
    ended("finished", 5, devices=1))
run("input_past_the_limit", loads(2), [UART], 3, "4 uart0 65\n", loaded(3, 0x10000000, 0),
    ended("limit", 3, devices=1))
run("no_input", loads(1), [UART], 100, "", loaded(3, 0x10000000, 0), ended("finished", 5, devices=1))
run("inputs_in_order", loads(4), [UART], 100, "1 uart0 7\n1 uart0 0\n1 uart0 255\n5 uart0 9\n",
    *[loaded(3 + n, 0x10000000, byte) for n, byte in enumerate((7, 0, 255, 9))], ended("finished", 8, devices=4))
# A port keeps 64 bytes: of 65 the first is gone, and after one load 63 wait.
run("port_is_full", [PORT, "clw a0, 4(ct0)", "clw a0, 0(ct0)", "clw a0, 4(ct0)", "cret"], [UART], 100,
    "".join(f"2 uart0 {n}\n" for n in range(1, 66)), loaded(3, 0x10000004, 64), loaded(4, 0x10000000, 2),
    loaded(5, 0x10000004, 63), ended("finished", 7, devices=3))
# A gpio shows its last byte.
run("two_devices", ["main: cimport ct0, uart0", "cimport ct1, pins", "clw a0, 0(ct0)", "clw a0, 4(ct1)",
                    "clw a0, 4(ct1)", "cret"], [UART, PINS], 100, "1 pins 3\n1 uart0 5\n6 pins 1\n7 pins 2\n",
    loaded(5, 0x10000000, 5), loaded(6, 0x10000024, 1, 5), loaded(7, 0x10000024, 2, 5),
    ended("finished", 9, devices=3))
# Bytes that come in one step to two devices, and one that never comes.
run("two_in_a_step", ["main: cimport ct0, uart0", "cimport ct1, pins", "clw a0, 4(ct1)", "nop", "clw a0, 0(ct0)",
                      "clw a0, 4(ct1)", "cret"], [UART, PINS], 100,
    "3 pins 0\n7 uart0 1\n7 pins 255\n4000000000 uart0 9\n", loaded(5, 0x10000024, 0, 5), loaded(7, 0x10000000, 1),
    loaded(8, 0x10000024, 255, 5), ended("finished", 10, devices=3))
# An access of eight bytes takes a byte and then tells how many are left. A byte's store writes zeros above, and one
# that isn't at a multiple of 4 is ignored; it loads what is shifted down.
APART = dict(PINS, base=0x20000000)
run("three_devices", ["main: cimport ct0, uart0", "clc ca0, 0(ct0)", "clbu a0, 0(ct0)", "clw a0, 0(ct0)",
                      "cimport ct1, pins", "li a0, 0x12345678", "csw a0, 0(ct1)", "li a1, 0xFF", "csb a1, 1(ct1)",
                      "clbu a2, 1(ct1)", "csb a1, 0(ct1)", "clw a2, 0(ct1)", "clw a2, 4(ct1)", "cret"],
    [UART, TIMER, APART], 100, "1 uart0 65\n1 uart0 66\n14 pins 7\n",
    "3 load t0 c0 e4 10000000 8 0000000100000041", "4 load t0 c0 e4 10000000 1 42", loaded(5, 0x10000000, 0),
    "10 store t0 c0 e6 20000000 4 12345678", "12 store t0 c0 e6 20000001 1 ff", "13 load t0 c0 e6 20000001 1 56",
    "14 store t0 c0 e6 20000000 1 ff", loaded(15, 0x20000000, 0xFF, 6), loaded(16, 0x20000004, 7, 6),
    ended("finished", 18, devices=9))
# With a tick before every step from the second on bytes still come once.
run("with_ticks", loads(2), [UART], 100, "2 uart0 1\n3 uart0 2\n", loaded(3, 0x10000000, 1), loaded(4, 0x10000000, 2),
    ended("finished", 6, ticks=5, devices=2), quantum=1)
# Both bytes come while the only thread sleeps, one in each of its two ticks.
run("inputs_in_a_sleep", ["main: cmove cs0, cra", "li a0, 2", *served("sleep"), "cimport ct0, uart0", "clw a0, 4(ct0)",
                          "clw a0, 0(ct0)", "cmove cra, cs0", "cret"], [UART], 100, "8 uart0 65\n15 uart0 66\n",
    loaded(23, 0x10000004, 2), loaded(24, 0x10000000, 65), ended("finished", 27, ticks=2, devices=2), quantum=10,
    services=["sleep"])


# ---- texts that are no script

def refused(name, text, wanted, words=("run", "{}", "100"), data=None):
    file = stored_file(name + ".script", text)
    whole = firmware(name, loads(1), [UART, TIMER, PINS])
    case(name, [*words, file], json.dumps(whole) if data is None else data, f"refused {wanted}\n")


for name, text, wanted in (
        ("no_form", "uart0 2 65\n", "S1 1"), ("empty_line", "2 uart0 65\n\n", "S1 2"),
        ("no_line_feed", "2 uart0 65\n3 uart0 66", "S1 2"), ("two_spaces", "2  uart0 65\n", "S1 1"),
        ("space_at_the_end", "2 uart0 65 \n", "S1 1"), ("tab", "2\tuart0 65\n", "S1 1"),
        ("carriage_return", "2 uart0 65\r\n", "S1 1"), ("leading_zero", "02 uart0 65\n", "S1 1"),
        ("step_0", "0 uart0 65\n", "S1 1"), ("step_too_great", "4000000001 uart0 65\n", "S1 1"),
        ("byte_256", "2 uart0 256\n", "S1 1"), ("no_byte", "2 uart0\n", "S1 1"),
        ("steps_fall", "5 uart0 1\n4 uart0 1\n", "S2 2"), ("timer_named", "2 clock 65\n", "S3 1"),
        ("nobody_named", "2 uart1 65\n", "S3 1"), ("falls_and_nobody", "5 uart0 1\n4 uart1 1\n", "S2 2"),
        ("no_form_and_falls", "5 uart0 1\n4 uart0 256\n", "S1 2"), ("least_line", "2 uart1 1\n1\n", "S3 1"),
        ("greatest_step", "4000000000 pins 255\n5 pins 1\n", "S2 2"),
        ("byte_with_a_zero", "1 uart0 01\n", "S1 1"), ("step_0_of_1", "0 uart0 1\n", "S1 1"),
        ("step_past_4000000000", "4000000001 uart0 1\n", "S1 1"), ("byte_256_of_1", "1 uart0 256\n", "S1 1"),
        ("line_that_ends", "1 uart0 1", "S1 1"), ("two_spaces_behind", "1 uart0  1\n", "S1 1"),
        ("empty_line_of_1", "2 uart0 1\n\n", "S1 2"), ("timer_on_line_2", "1 uart0 1\n1 clock 1\n", "S3 2"),
        ("falls_at_nobody", "2 uart0 1\n1 nobody 1\n1\n", "S2 2"),
        ("nobody_and_no_form", "1 nobody 1\n1\n", "S3 1")):
    refused("script_" + name, text, "8 script " + wanted)

# Of an image too; and what is wrong with the files before it comes first.
whole = firmware("of_image", loads(1), [UART])
case("script_of_image", ["runimage", "{}", "100", stored_file("of_image.script", "2 clock 65\n")], image(whole),
     "refused 8 script S3 1\n")
case("script_missing", ["run", "{}", "100", "nosuch.script"], json.dumps(whole), "refused 2 read nosuch.script\n")
case("script_of_nothing", ["run", "{}", "100", "nosuch.script"], "{", "refused 4 description F1 firmware 0 0\n")
case("script_of_cut_image", ["runimage", "{}", "100", "nosuch.script"], image(whole)[:-1],
     f"refused 7 image I2 {len(image(whole)) - 1}\n")
case("script_and_no_limit", ["run", "{}", "0", "nosuch.script"], json.dumps(whole), "refused 1 usage\n")
case("script_and_more", ["run", "{}", "1", "a.script", "b"], json.dumps(whole), "refused 1 usage\n")
