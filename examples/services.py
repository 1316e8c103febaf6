"""What native routines answer, and why an error handler is entered or isn't (docs/use/machine.md), in words."""
import types

import plain  # noqa: F401  its path has the model
from model.machine import RECORD
from traces import CODES

QUOTA = {-1: "it is no quota"}
HEAP = {**QUOTA, -2: "the quota's limit would be passed", -3: "there is no place",
        -4: "the size is 0 or above the heap's length", -5: "there is no place before a sweep"}
KEY, TOKEN = {-7: "it is no key"}, {-8: "it is no token of this key"}
ANSWERS = {
    "switch": {-11: "less stack is left than the export asks for", -12: "the thread has no more frames"},
    "wait": {-21: "the word has another value"}, "allocate": HEAP, "remaining": QUOTA,
    "free": {**QUOTA, -6: "it is no whole live object of this quota"}, "token_key": HEAP,
    "token_new": {**HEAP, **KEY}, "token_open": {**KEY, **TOKEN},
    "token_free": {**QUOTA, **KEY, **TOKEN, -6: "the token is charged to another quota"}}


def meaning(routine, value):
    """What the negative answer of a native routine means; empty where it has none."""
    return ANSWERS.get(routine, {}).get(value - 2 ** 32, "")


def answer_text(routine, value):
    """The meaning of an answer in brackets, behind a blank."""
    found = meaning(routine, value)
    return f" ({found})" if found else ""


def unhandled(machine, moment):
    """Why a trap at a moment enters no error handler; empty where it enters one."""
    owner, frame, csp = machine.i.owners[moment.actor], moment.frame, moment.registers[2]
    base = machine.threads[moment.thread].base
    if not owner.handler:
        return "there is no handler"
    if moment.handling:
        return "this frame's handler was entered before"
    code = machine.stack_code(types.SimpleNamespace(regs=moment.registers, base=base, frames=[frame]))
    if code:
        return f"csp is no stack of this frame: {CODES[code]}"
    room = (csp.address & ~15) - base
    return f"{room} bytes of stack are left, and {RECORD} wanted" if room < RECORD else ""
