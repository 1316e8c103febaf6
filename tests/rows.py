#!/usr/bin/env python3
"""Worked rows of the program: each command, the smallest sample with other code, sources, descriptions, policies.

    rows.py OUT     writes the cases that cases.py tells of
"""
import copy
import json

from cases import UART, case, compartment, ended, image, lines, report, row, run, sample, source, stored, thread
from firmwares import board, small_board

TINY = sample("tiny")
BOARD = small_board()
STORE = "4 store t0 c0 e4 10000000 4 00000041"


def tiny(words=None, device=None, rights=None, size=None, **members):
    """The smallest sample with other words, another kind of device, other rights or another RAM."""
    firmware = dict(copy.deepcopy(TINY), **members)
    if words:
        firmware["compartments"][0]["code"] = {"words": words}
    if device:
        firmware["devices"][0]["kind"] = device
    if rights:
        firmware["compartments"][0]["imports"][0]["rights"] = rights
    if size:
        firmware["ram"]["size"] = size
    return firmware


# ---- runs of the smallest sample with other code

SLOT = ["00000297", "ff82b283"]
run("limit", TINY, 3, ended("limit", 3))
run("limit_before_the_end", TINY, 5, STORE, ended("limit", 5, devices=1))
run("limit_at_the_end", TINY, 6, STORE, ended("finished", 6, devices=1))
run("past_the_device", tiny(SLOT + ["00a2a823"]), 100, "3 trap t0 c0 28 1 5", ended("finished", 3, traps=1))
run("divided_by_zero", tiny(SLOT + ["00700513", "020555b3", "00b2a023", "00008067"]), 100,
    "5 store t0 c0 e4 10000000 4 ffffffff", ended("finished", 7, devices=1))
run("register_16", tiny(["00000813"]), 100, "1 trap t0 c0 2 0 0", ended("finished", 1, traps=1))
run("trap_at_the_end", tiny(["00000813"]), 1, "1 trap t0 c0 2 0 0", ended("finished", 1, traps=1))
run("endless", tiny(["0000006f"]), 5, ended("limit", 5))

# Jumps: the globals and the stack aren't code, and a number is no capability; the thread's return sentry is taken
# through c1 alone, without a link and an immediate; the switch's forward sentry takes no immediate, and leads to the
# switch, which finds no tag in c6; a target is a multiple of 4 when its lowest bit is cleared.
SWITCH = ["00000297", "ff02b283"]  # auipcc c5, 0; clc c5, -16(c5)
for name, words, step, told in (
        ("globals", ["00018067"], 1, "28 17 3"), ("stack", ["000100e7"], 1, "28 17 2"),
        ("number", ["00020067"], 1, "28 2 4"), ("return_with_a_link", ["000080e7"], 1, "28 3 1"),
        ("return_with_an_immediate", ["00408067"], 1, "28 3 1"),
        ("return_by_another_register", ["fea082db", "00028067"], 2, "28 3 5"),
        ("forward_with_an_immediate", SWITCH + ["004280e7"], 3, "28 3 5"),
        ("forward_with_a_link", SWITCH + ["000280e7"], 4, "28 2 6"),
        ("forward_without_a_link", SWITCH + ["00028067"], 4, "28 2 6"),
        ("forward_with_another_link", SWITCH + ["000283e7"], 4, "28 2 6"),
        ("misaligned", ["00000297", "00628067"], 2, "0 0 0")):
    run("jump_" + name, tiny(words), 100, f"{step} trap t0 c0 {told}", ended("finished", step, traps=1))
# auipcc c5, 0; cjalr c0, 13(c5); a word that is no instruction; cjalr c0, 0(c1)
run("jump_odd", tiny(["00000297", "00d28067", "00000813", "00008067"]), 100, ended("finished", 4))
# csc c1, 0(c3); jal c1, 8; clc c1, 0(c3); cjalr c0, 0(c1): the last returns to the third, and then ends.
run("jump_kept_return", tiny(["0011b023", "008000ef", "0001b083", "00008067"]), 100, ended("finished", 6))
# cmove c8, c1; auipcc c5, 0; cjalr c7, 12(c5); cmove c7, c8; cmove c1, c7; cjalr c0, 0(c1): the third passes over the
# fourth, to which the sixth returns, and then it ends.
run("jump_link_elsewhere", tiny(["fea0845b", "00000297", "00c283e7", "fea403db", "fea380db", "00008067"]), 100,
    ended("finished", 9))
# The link of jal c6, 8 has type 5, which is shown, and no other jump takes it.
run("jump_type_of_a_link", tiny(SLOT + ["0080036f", "00000813", "fe13055b", "00a2a023", "00030067"]), 100,
    "5 store t0 c0 e4 10000000 4 00000005", "6 trap t0 c0 28 3 6", ended("finished", 6, devices=1, traps=1))
run("load_without_the_right", tiny(SLOT + ["0002a503"]), 100, "3 trap t0 c0 28 18 5", ended("finished", 3, traps=1))
run("pins", tiny(SLOT + ["04100513", "00a2a023", "0002a583", "00008067"], "gpio", "RW"), 100, STORE,
    "5 load t0 c0 e4 10000000 4 00000041", ended("finished", 7, devices=2))
disabled = tiny()
disabled["compartments"][0]["exports"][0]["posture"] = "disabled"
run("disabled_entry", disabled, 100, "1 off t0 c0 e5", STORE, ended("finished", 6, devices=1))
# Two threads of the smallest sample's code: the first runs to its end, and then the second; with a tick before every
# other step they take turns of two steps. Step 9, the first thread's jump to its return sentry, comes after the fourth
# tick, and step 11, the second thread's, after the fifth.
twins = TINY["threads"] + [dict(TINY["threads"][0], name="u")]
ALSO = "10000000 4 00000041"
run("two_threads", tiny(threads=twins), 100, STORE, f"10 store t1 c0 e4 {ALSO}", ended("finished", 12, devices=2))
run("threads_in_turns", tiny(threads=twins, quantum=2), 100, f"6 store t0 c0 e4 {ALSO}", f"8 store t1 c0 e4 {ALSO}",
    ended("finished", 12, ticks=5, devices=2))
run("turns_cut_short", tiny(threads=twins, quantum=2), 7, f"6 store t0 c0 e4 {ALSO}",
    ended("limit", 7, ticks=3, devices=1))
# The stack's capability lacks GL, so that it is stored untagged in the globals, where SL is missing, and loaded back:
# its tag, its address and its high word; and of its high word the second highest byte but one, with its sign.
KEPT = SLOT + ["0021b423"]  # and csc c2, 8(c3)
BACK = KEPT + ["0081b303"]  # and clc c6, 8(c3)
for name, words, told in (("tag_and_address", BACK + ["fe43055b", "00a2a023", "0062a023"], ((6, 0), (7, 0x80000160))),
                          ("high_word", BACK + ["ff73055b", "00a2a023"], ((6, 0x3E00C160),)),
                          ("signed_byte", KEPT + ["00b18503", "00a2a023"], ((5, 0xFFFFFF80),))):
    run("stack_kept_" + name, tiny(words + ["00008067"]), 100, *[stored(step, 0, 0, 4, word) for step, word in told],
        ended("finished", told[-1][0] + 2, devices=len(told)))
case("least_ram", ["audit", "{}"], json.dumps(tiny(size=656)), lines(report(tiny(size=656))))
case("no_room", ["audit", "{}"], json.dumps(tiny(size=640)), "refused 6 link L2 656 640\n")
case("no_steps", ["run", "{}", "0"], json.dumps(TINY), "refused 1 usage\n")


# ---- code by sources

def filed(name, source_lines, **members):
    """The smallest sample, whose code is a file of these lines."""
    firmware = tiny(**members)
    firmware["compartments"][0]["code"] = source(name + ".s", source_lines)
    firmware["compartments"][0]["exports"][0]["at"] = "main"
    return firmware


def hostile(name, limit, wanted, *source_lines):
    """A firmware without devices, with the bytes of a capability for all of memory in its globals."""
    firmware = filed(name, ["main: " + source_lines[0], *source_lines[1:], ".data", ".word 0", ".word 0x7E3C0100"],
                     firmware="forge")
    del firmware["devices"], firmware["compartments"][0]["imports"]
    run(name, firmware, limit, *wanted)


def trapped(step, cause, code, register):
    return f"{step} trap t0 c0 {cause} {code} {register}", ended("finished", step, traps=1)


hostile("forged", 100, trapped(2, 28, 2, 5), "clc ct0, 0(cgp)", "clw a0, 0(ct0)")
hostile("smuggled", 100, trapped(3, 28, 2, 5), "csc csp, 0(cgp)", "clc ct0, 0(cgp)", "clw a0, 0(ct0)")
hostile("high_word", 100, trapped(2, 28, 2, 5), "csethigh ct0, cgp, ca0", "clw a0, 0(ct0)")
hostile("wider_bounds", 100, trapped(2, 28, 2, 5), "csetboundsimm ct0, cgp, 32", "clw a0, 0(ct0)")
hostile("jump_to_data", 100, trapped(1, 28, 17, 3), "cjr cgp")
hostile("not_aligned", 100, trapped(1, 4, 0, 0), "clw a0, 1(cgp)")
hostile("store_to_code", 100, trapped(2, 28, 19, 5), "auipcc ct0, 0", "csw a0, 0(ct0)")
for name, line, wanted in (("store_past", "csw a0, 16(ct0)", trapped(3, 28, 1, 5)),
                           ("load_of_stores", "clw a0, 0(ct0)", trapped(3, 28, 18, 5))):
    run(name, filed(name, ["main: cimport ct0, uart", line]), 100, *wanted)
# Two firmware that differ in a byte of the keeper's globals: the prowler is told the same, where it tries to load it, before
# the keeper has acted or after.
for secret in (75, 90):
    for name, priority, load, store in (("secret", 1, 3, 7), ("secret_stored", 2, 9, 4)):
        wanted = {load: f"{load} trap t0 c0 28 2 10", store: f"{store} store t1 c1 e8 10000000 1 {secret:02x}"}
        row(f"{name}_{secret}", [
            compartment("prowler", [], ["peek"], "peek: li a0, 0x800000a0", "clw a1, 0(ca0)", "cret"),
            compartment("keeper", [UART], ["show"], "show: clbu a0, 0(cgp)", "cimport ct0, uart", "csb a0, 0(ct0)", "cret",
                        ".data", f".byte {secret}")],
            [thread("prowler.peek", "e", frames=1), thread("keeper.show", "k", frames=1, priority=priority)], 100,
            *(wanted[step] for step in sorted(wanted)), ended("finished", 9, devices=1, traps=1),
            firmware="walls", ram={"base": 0x80000000, "size": 1152})
sealed = filed("sealed_export", ["main: cimport ct0, self", "cjr ct0"])
sealed["compartments"][0]["imports"] = [{"as": "self", "call": "app.main"}]
run("sealed_export", sealed, 100, *trapped(3, 28, 3, 5))
run("words_of_li", filed("words_of_li", ["main: li a0, 4096", "li a1, 4294967295", "cret"]), 100, ended("finished", 5))
case("mnemonic", ["audit", "{}"], json.dumps(filed("mnemonic", ["main: nop", "frob a0"])),
     "refused 5 assembly A2 app 2\n")
case("undeclared", ["image", "{}"], json.dumps(filed("undeclared", ["main: cimport ct0, nosuch"])),
     "refused 6 link L3 app 1\n")
case("no_source", ["audit", "{}"], json.dumps(dict(TINY, compartments=[dict(TINY["compartments"][0],
     code={"file": "nosuch.s"})])), "refused 2 read nosuch.s\n")

# ---- the files of a board, read in order up to the first that isn't there

for missing in range(3):
    firmware = copy.deepcopy(BOARD)
    for at, owner in enumerate(firmware["compartments"] + firmware["libraries"]):
        name = f"file_{missing}_{at}"
        here = at < missing
        owner["code"] = source(name + ".s", ["put: cret", "main: cret", "digit: cret"]) if here else {"file": name}
    case(f"missing_{missing}", ["audit", "{}"], json.dumps(firmware), f"refused 2 read file_{missing}_{missing}\n")

# ---- descriptions that are refused

nowhere = tiny()
nowhere["compartments"][0]["imports"][0]["device"] = "uart9"
for name, data, wanted in (("open", "{", "F1 firmware 0 0"), ("empty", "{}", "F2 firmware 0 0"),
                           ("nowhere", json.dumps(nowhere), "F7 import 0 0"),
                           ("sweep", json.dumps(tiny(sweep=32)), "F6 firmware 0 0")):
    case(name, ["audit", "{}"], data, f"refused 4 description {wanted}\n")
case("no_file", ["audit", "nosuch.json"], "", "refused 2 read nosuch.json\n")

# ---- why

passing = copy.deepcopy(BOARD)
passing["compartments"][1]["exports"][0]["passes"] = "capabilities"
both = board()
for name, firmware in (("small", BOARD), ("board", both)):
    case(f"why_{name}_none", ["why", "{}", "app", "driver"], json.dumps(firmware), "none\n")
    case(f"why_{name}_library", ["why", "{}", "hex", "app"], json.dumps(firmware), "path hex app\n")
    case(f"why_{name}_name", ["why", "{}", "t", "app"], json.dumps(firmware), "refused 11 name\n")
case("why_passing", ["why", "{}", "app", "driver"], json.dumps(passing), "path app driver\n")

# ---- images

BYTES = image(TINY)
assert len(BYTES) == 412
case("image", ["image", "{}"], json.dumps(TINY), BYTES)
case("runimage", ["runimage", "{}", "100"], BYTES, lines(report(TINY), STORE, ended("finished", 6, devices=1)))
for name, limit, kind in ("before", 5, "limit"), ("at", 6, "finished"):
    case(f"runimage_limit_{name}_the_end", ["runimage", "{}", str(limit)], BYTES,
         lines(report(TINY), STORE, ended(kind, limit, devices=1)))

# ---- images in the last version of the format

UPGRADED = BYTES[:4] + bytes([2, 0, 0, 0]) + BYTES[8:52] + bytes([64, 0, 0, 0]) + BYTES[52:]
assert len(UPGRADED) == 416
case("upgrade", ["upgrade", "{}"], BYTES, UPGRADED)
case("upgrade_again", ["upgrade", "{}"], UPGRADED, UPGRADED)
case("upgrade_no_file", ["upgrade", "nosuch.image"], "", "refused 2 read nosuch.image\n")
case("runimage_upgraded", ["runimage", "{}", "100"], UPGRADED,
     lines(report(TINY), STORE, ended("finished", 6, devices=1)))

# ---- policies


def judged(name, rules, wanted, firmware=None):
    """The board with two threads and an allocation, or another firmware, judged by a policy of these rules."""
    policy = source(name + ".policy", rules)["file"]
    case("check_" + name, ["check", "{}", policy], json.dumps(firmware or both), wanted + "\n")


judged("allowed", ["device uart0 only driver", "call driver.put only app", "apart app driver", "quota app 64"], "allow")
judged("empty", [], "allow")
judged("device", ["device uart0 only app"], "denied 1 12")
judged("total", ["quota total 63"], "denied 1 7")
judged("apart", ["apart hex app"], "denied 1 path hex app")
judged("several", ["device uart0 only driver", "quota app 63", "call driver.put only driver", "apart hex app"],
       "denied 2 7\ndenied 3 5\ndenied 4 path hex app")
judged("no_form", ["frob"], "refused 13 policy P1 1")
judged("no_name", ["quota app 64", "device uart9 only app"], "refused 13 policy P2 2")
judged("no_description", ["frob"], "refused 4 description F6 firmware 0 0", tiny(sweep=32))
judged("no_link", ["frob"], "refused 5 assembly A2 app 2", filed("judged_mnemonic", ["main: nop", "frob a0"]))
case("check_no_policy", ["check", "{}", "nosuch.policy"], json.dumps(BOARD), "refused 2 read nosuch.policy\n")
case("check_no_source", ["check", "{}", "nosuch.policy"], json.dumps(dict(TINY, compartments=[dict(
     TINY["compartments"][0], code={"file": "nosuch.s"})])), "refused 2 read nosuch.s\n")
