"""Firmware that several tables link: the sample board, one with a part of each kind, three that share an object; and
the text of a description with one of every part.

Of each file of a description its source is handed to the program under a name of its own.
"""
import os
import sys

from cases import DEVICES, SMALL, sample, source, text_of

TABLE = os.path.basename(sys.argv[0]).removesuffix(".py")
COUNT = [0]


def sourced(firmware, texts):
    """The description with these sources as the code of its owners that have no words."""
    COUNT[0] += 1
    owners = [owner for owner in firmware["compartments"] + firmware.get("libraries", []) if not owner["code"]]
    for owner, text in zip(owners, texts):
        owner["code"] = source(f"{TABLE}_{COUNT[0]}_{owner['name']}.s", text.splitlines())
    return firmware


APP, DRIVER, HEX = (text_of("board", file) for file in ("app.s", "driver.s", "hex.s"))
DIGIT = "main: cmove cs0, cra\nli a0, 7\ncimport ct2, digit\ncjalr cra, ct2\ncmove cra, cs0\ncret\n"


def board(*texts, size=4096, passes="data"):
    """The sample: two compartments, a library and two threads. With other sources, or these bytes of RAM; what the
    first calls passes data or capabilities."""
    firmware = dict(sample("board"), ram=dict(SMALL, size=size))
    for owner in firmware["compartments"] + firmware["libraries"]:
        owner["code"] = {}
    firmware["compartments"][1]["exports"][0]["passes"] = passes
    return sourced(firmware, texts or [APP, DRIVER, HEX])


def small_board():
    """The same with one thread and no service, whose first compartment makes a digit alone."""
    firmware = board(DIGIT, DRIVER, HEX)
    del firmware["threads"][1], firmware["compartments"][0]["imports"][2]
    return firmware


def large():
    """A firmware of the last version with a slot of each kind, code by words and by sources, and initial bytes."""
    one = {"name": "one", "code": {}, "globals": 32, "keys": [13], "quotas": [{"name": "memory", "limit": 64}],
           "imports": [{"as": "allocate", "service": "allocate"}, {"as": "pins", "device": "pins", "rights": "RW"},
                       {"as": "box", "shared": "box", "rights": "RWC"}, {"as": "secret", "sealed": "secret"},
                       {"as": "serve", "call": "two.serve"}, {"as": "twice", "library": "lib.twice"}],
           "exports": [{"name": "main", "at": "main", "args": 2, "stack": 256, "passes": "data"},
                       {"name": "handler", "at": 8, "posture": "disabled"}]}
    two = {"name": "two", "code": {"words": ["00000013", "00008067"]},
           "exports": [{"name": "serve", "at": 4, "args": 0, "stack": 512}]}
    base = {"name": "base", "code": {"words": ["00008067"]}, "exports": [{"name": "id", "at": 0}]}
    lib = {"name": "lib", "code": {}, "imports": [{"as": "id", "library": "base.id"}],
           "exports": [{"name": "twice", "at": "twice", "posture": "disabled"}]}
    return sourced({
        "firmware": "large", "version": 2, "sweep": 32, "quantum": 1000, "ram": dict(SMALL, size=8192),
        "devices": [*DEVICES, {"name": "pins", "kind": "gpio", "base": 0x10000010}],
        "shared": [{"name": "box", "size": 32}], "sealed": [{"name": "secret", "type": 14, "bytes": "616263646566"}],
        "compartments": [one, two], "libraries": [base, lib],
        "threads": [{"name": "t", "entry": "one.main", "priority": 0, "stack": 256, "frames": 4},
                    {"name": "u", "entry": "two.serve", "priority": 15, "stack": 512, "frames": 1}],
    }, ["main: cimport ct0, box\nli a0, 65\ncret\n.data\n" + "".join(f".byte {byte}\n" for byte in b"hello"),
        "twice: cimport ct2, id\ncjr ct2\n"])


def sharing(rights, passes):
    """Compartments a and b share an object, b with these rights; c calls b, which passes data or capabilities."""
    def ring(letters):
        return {"as": "ring", "shared": "ring", "rights": letters}

    code = {"words": ["00000000"]}
    return {
        "firmware": "sharing", "ram": SMALL, "shared": [{"name": "ring", "size": 16}],
        "compartments": [
            {"name": "a", "code": code, "imports": [ring("RWC")]},
            {"name": "b", "code": code, "imports": [ring(rights)],
             "exports": [{"name": "f", "at": 0, "args": 1, "passes": passes}]},
            {"name": "c", "code": code, "imports": [{"as": "f", "call": "b.f"}]}],
        "threads": [{"name": "t", "entry": "b.f", "priority": 1, "stack": 256, "frames": 1}]}


# One of every part; the file of its library's code isn't there.
WHOLE = """{"firmware":"f","ram":{"base":2147483648,"size":4096},
"devices":[{"name":"uart0","kind":"uart","base":268435456}],
"shared":[{"name":"pool","size":64}],"sealed":[{"name":"seed","type":13,"bytes":"0aff"}],
"compartments":[{"name":"app","code":{"words":["00000297","ff82b283"]},"imports":[
{"as":"uart","device":"uart0","rights":"W"},{"as":"box","shared":"pool","rights":"RWC"},{"as":"token","sealed":"seed"},
{"as":"put","call":"app.main"},{"as":"digit","library":"hex.digit"}],
"quotas":[{"name":"q","limit":96}],"keys":[13],"exports":[{"name":"main","at":0}]}],
"libraries":[{"name":"hex","code":{"file":"nohex.s"},"imports":[{"as":"self","library":"hex.digit"}],
"exports":[{"name":"digit","at":"digit"}]}],
"threads":[{"name":"t","entry":"app.main","priority":1,"stack":256,"frames":2}]}""".replace("\n", "")
