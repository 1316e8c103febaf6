"""What registers and granules hold, in words: numbers, and capabilities by the entry that they come from."""
from reports import title
from traces import NAMES

RIGHTS = "GL LG SD LM SL LD MC SR EX US SE U0".split()
SEALS = {1: "a sentry", 2: "a sentry that turns interrupts off", 3: "a sentry that turns interrupts on",
         4: "a return with interrupts off", 5: "a return with interrupts on", 9: "an export", 10: "a quota"}


def rights_of(cap):
    return [name for n, name in enumerate(RIGHTS) if cap.perms >> n & 1]


def number_text(value):
    """A word as a number: small ones with their sign in decimal, others in hexadecimal."""
    signed = value - 2 ** 32 if value >> 31 else value
    return str(signed) if -4096 < signed < 4096 else f"0x{value:08x}"


def seal_text(cap, keys):
    """What a capability is sealed as; a key or a token by its own number and its key's."""
    if cap.source in keys:
        return f"key n{cap.source}" if keys[cap.source] == 0 else f"token n{cap.source} of key n{keys[cap.source]}"
    return SEALS.get(cap.seal, f"sealed as type {cap.seal}")


def cap_text(report, cap, rights=False, keys=()):
    """What a register or a granule holds: a number, or a range with the entry that it comes from, and its rights."""
    base, top = cap.bounds()
    if not cap.tag:
        return number_text(cap.address) + (f" (no tag, high word 0x{cap.high:08x})" if cap.high else "")
    at = "" if cap.address == base else f" at {cap.address:08x}"
    entry = report.entry.get(cap.root)
    made = f" n{cap.source}," if entry and entry["kind"] == "quota" and not cap.seal else ""
    origin = f"{made} by {title(entry)}" if entry else ""
    sealed = f", {seal_text(cap, keys)}" if cap.seal else ""
    return f"[{base:08x},{top:08x}){at}{origin}{sealed}" + (f", {' '.join(rights_of(cap))}" if rights else "")


def register_name(n, cap):
    """A register by its name: as a capability's where it holds one, else as a number's."""
    return ("c" if cap.tag or cap.high else "") + NAMES[n]
