#!/usr/bin/env python3
"""Worked rows of policies: what denies each of a few firmwares, or the fault of the policy's text.

    policies.py OUT     writes the cases that cases.py tells of

The answers were worked out by hand from docs/use/policies.md and the firmwares' reports, whose numbers of entries they
have.
"""
import json

from cases import case, stored_file
from firmwares import board, large, sharing

COUNT = [0]


def judged(firmware, rows):
    """Each policy, and what is written of it: words of denials, or of a fault, a line for each."""
    for policy, wanted in rows:
        COUNT[0] += 1
        name = f"policy_{COUNT[0]}"
        case(name, ["check", "{}", stored_file(f"{name}.policy", policy)], json.dumps(firmware), wanted + "\n")


def faulty(rows):
    judged(board(), [(policy, f"refused 13 policy {fault}") for policy, fault in rows])


# ---- a board with a library and two threads

judged(board(), [
    ("device uart0 only app driver\n", "allow"),
    ("service allocate only driver hex\n", "denied 1 6"),
    ("call driver.put only driver\n", "denied 1 5"),
    ("disabled only app\n", "allow"),
    ("data driver.put\ndata app.main\n", "denied 2 8"),
    ("quota total 64\nquota app 0\nquota hex 0\n", "denied 2 7"),
    ("quota app 2199023255551\n", "allow"),
    ("apart hex app\napart hex driver\n", "denied 1 path hex app"),
    ("apart app app\nquota total 0\n", "denied 1 path app\ndenied 2 7"),
])

# ---- the same, whose app has a second quota, of 36 bytes: entry 8, so exports come one later

def twice():
    firmware = board()
    firmware["compartments"][0]["quotas"].append({"name": "more", "limit": 36})
    return firmware


judged(twice(), [
    ("quota total 100\nquota app 100\n", "allow"),
    ("quota total 99\n", "denied 1 8"),
    ("quota app 63\n", "denied 1 7\ndenied 1 8"),
])

# ---- the same, whose driver has quotas of 36 bytes and of none: entries 13 and 14; app's, of 64 bytes, is entry 7

def spread():
    firmware = board()
    firmware["compartments"][1]["quotas"] = [{"name": "some", "limit": 36}, {"name": "none", "limit": 0}]
    return firmware


judged(spread(), [
    ("quota total 100\nquota driver 36\nquota app 64\n", "allow"),
    ("quota total 99\nquota driver 35\n", "denied 1 13\ndenied 1 14\ndenied 2 13\ndenied 2 14"),
    ("quota total 63\nquota hex 0\nquota app 63\n", "denied 1 7\ndenied 1 13\ndenied 1 14\ndenied 3 7"),
    ("quota total 64\nquota total 64\n", "denied 1 13\ndenied 1 14\ndenied 2 13\ndenied 2 14"),
])

# ---- the same, whose app and driver open tokens: entries 7 and 14

def opening():
    firmware = board()
    for owner in firmware["compartments"]:
        owner["imports"].append({"as": "token_open", "service": "token_open"})
    return firmware


judged(opening(), [
    ("service token_open only app driver\n", "allow"),
    ("service token_open only app\n", "denied 1 14"),
    ("service token_open only hex\n", "denied 1 7\ndenied 1 14"),
])

# ---- the same, whose app makes keys and tokens, entries 7 and 8, and has an error handler, entry 11, with interrupts
# off where it is called by its name; whose driver frees tokens, entry 16

def guarding():
    firmware = board()
    app, driver = firmware["compartments"]
    app["imports"] += [{"as": name, "service": name} for name in ("token_key", "token_new")]
    app["exports"].append({"name": "handler", "at": "main", "posture": "disabled"})
    driver["imports"].append({"as": "token_free", "service": "token_free"})
    return firmware


judged(guarding(), [
    ("service token_key only app\nservice token_new only app\nservice token_free only driver\n", "allow"),
    ("service token_key only driver\n", "denied 1 7"),
    ("service token_new only hex driver\nservice token_free only app\n", "denied 1 8\ndenied 2 16"),
    ("service token_open only hex\ncall app.handler only driver\n", "allow"),
    ("disabled only driver\ndata app.handler\n", "denied 1 11\ndenied 2 11"),
])

# ---- three compartments that share an object, a with b, and a call that passes data

judged(sharing("RWC", "data"), [
    ("quota total 0\n", "allow"),
    ("shared ring only a\n", "denied 1 8"),
    ("apart b a\napart c a\n", "denied 1 path b a"),
])

# ---- the same, whose last compartment has an export, the last of all: entry 14, after its call, entry 13

def ending():
    firmware = sharing("RWC", "data")
    firmware["compartments"][2]["exports"] = [{"name": "g", "at": 0, "args": 1}]
    return firmware


judged(ending(), [
    ("data b.f\ndata c.g\n", "denied 2 14"),
    ("call b.f only a b\ncall c.g only a\ncall b.f only b c\n", "denied 1 13"),
])

# ---- a firmware with a part of each kind

judged(large(), [
    ("disabled only two\n", "denied 1 13\ndenied 1 22"),
    ("disabled only two base lib two base lib\ndisabled only base two one\n", "denied 1 13\ndenied 2 22"),
    ("disabled only lib one\nquota total 63\nquota one 63\n", "denied 2 10\ndenied 3 10"),
    ("data one.main\ndata two.serve\n", "denied 2 17"),
    ("device pins only two\nshared box only two\nservice allocate only two\ncall two.serve only two\n",
     "denied 1 5\ndenied 2 6\ndenied 3 4\ndenied 4 8"),
    ("apart lib two\napart base one\n", "denied 1 path lib one two\ndenied 2 path base lib one"),
])

# ---- faults of a policy's text

# It has no form of a rule.
faulty([
    ("device uart0 only app", "P1 1"),
    ("device uart0  only app\n", "P1 1"),
    ("device uart0 only\n", "P1 1"),
    ("device uart\u00e9 only app\n", "P1 1"),
    ("quota app 64\n\n", "P1 2"),
    ("quota app 064\n", "P1 1"),
    ("quota nobody 2199023255552\n", "P1 1"),
    ("call driver only app\n", "P1 1"),
    ("data a.b.c\n", "P1 1"),
])
# It names something that isn't there, by the least line.
faulty([
    ("device uart9 only app\n", "P2 1"),
    ("device App! only app\n", "P2 1"),
    ("quota t 64\n", "P2 1"),
    ("service switch only app\n", "P2 1"),
    ("call hex.digit only app\n", "P2 1"),
    ("apart app hex\n", "P2 1"),
    ("quota app 1\ndevice nobody only app\nfrob\n", "P2 2"),
])
