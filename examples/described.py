"""The description and the sources of an image: what describe.py writes."""
import json
import re

from disassemble import Listing
from manners import Refusal
from places.images import POSTURES
from places.tables import SERVICES

RIGHTS = {50: "R", 49: "W", 51: "RW", 55: "RC", 48: "WC", 59: "RWC"}
PASSES = ["capabilities", "data"]
SERVICE, DEVICE, SHARED, SEALED, CALL, LIBRARY, QUOTA, KEY = range(1, 9)
WIDTH = 120
NAME = re.compile("[a-z][a-z0-9_]{0,31}")


def element(items, index, what):
    """One of some things by its number; it refuses where there is none."""
    if not 0 <= index < len(items):
        raise Refusal(f"no image that capfw takes: there is no {what} {index}")
    return items[index]


def export_name(owners, owner, export):
    it = element(owners, owner, "owner")
    return f"{it.name}.{element(it.exports, export, 'export of ' + it.name)[-1]}"


def import_of(image, own, slot):
    """An import as a description has it."""
    kind, rights, first, second, name = slot
    libraries = [owner for owner in image.owners if owner.kind == "library"]
    lists = {DEVICE: ("device", image.devices), SHARED: ("shared", image.shared), SEALED: ("sealed", image.sealed)}
    if kind == SERVICE:
        return {"as": name, "service": element(["switch", "return", *SERVICES], first, "service")}
    if kind in lists:
        form, items = lists[kind]
        more = {} if kind == SEALED else {"rights": RIGHTS.get(rights, str(rights))}
        return {"as": name, form: element(items, first, form)[0], **more}
    if kind == CALL:
        return {"as": name, "call": export_name(image.owners[:own], first, second)}
    return {"as": name, "library": export_name(libraries, first, second)}


def export_of(owner, row):
    offset, stack, arguments, posture, passes, name = row
    out = {"name": name, "at": name if offset < len(owner.text) else offset,
           "posture": element(POSTURES, posture - 1, "posture")}
    if owner.kind == "compartment":
        out.update(args=arguments, stack=stack, passes=element(PASSES, passes - 1, "way of passing"))
    return out


def owner_of(image, own, owner):
    """A compartment or a library as a description has it."""
    out = {"name": owner.name, "code": {"file": owner.name + ".s"}}
    slots = owner.slots[1:] if owner.kind == "compartment" else owner.slots
    out["imports"] = [import_of(image, own, slot) for slot in slots if slot[0] not in (QUOTA, KEY)]
    if owner.kind == "compartment":
        out["globals"] = owner.size
        out["quotas"] = [{"name": slot[-1], "limit": slot[2]} for slot in slots if slot[0] == QUOTA]
        out["keys"] = [slot[2] for slot in slots if slot[0] == KEY]
    out["exports"] = [export_of(owner, row) for row in owner.exports]
    return {name: value for name, value in out.items() if value != []}


def description(image):
    """The description of an image."""
    names = [image.firmware, *(owner.name for owner in image.owners)]
    stray = next((name for name in names if not NAME.fullmatch(name)), None)
    if image.cut or stray is not None:
        raise Refusal(f"no image that capfw takes: {image.cut or 'a name'}")
    compartments = [owner for owner in image.owners if owner.kind == "compartment"]
    own = len(compartments)
    out = {"firmware": image.firmware, "version": image.version}
    out.update({"sweep": image.sweep} if image.version > 1 else {})
    out.update(ram={"base": image.ram, "size": image.size}, quantum=image.quantum)
    out["devices"] = [{"name": name, "kind": kind, "base": base} for name, kind, base in image.devices]
    out["shared"] = [{"name": name, "size": length} for name, _, length in image.shared]
    out["sealed"] = [{"name": row[0], "type": row[3], "bytes": row[4].hex()} for row in image.sealed]
    out["compartments"] = [owner_of(image, own, owner) for owner in compartments]
    out["libraries"] = [owner_of(image, own, owner) for owner in image.owners[own:]]
    out["threads"] = [{"name": name, "entry": export_name(compartments, owner, export), "priority": priority,
                       "stack": length, "frames": frames}
                      for name, _, length, owner, export, priority, frames in image.threads]
    return {name: value for name, value in out.items() if value != []}


def laid_out(value, margin=""):
    """A value as JSON, in which a list or an object that has no room in a line has a line for each part."""
    line = json.dumps(value)
    if len(margin) + len(line) < WIDTH or not isinstance(value, (dict, list)) or not value:
        return line
    inner = margin + "  "
    if isinstance(value, dict):
        parts, ends = [f"{json.dumps(name)}: {laid_out(part, inner)}" for name, part in value.items()], "{}"
    else:
        parts, ends = [laid_out(part, inner) for part in value], "[]"
    return ends[0] + "\n" + ",\n".join(inner + part for part in parts) + "\n" + margin + ends[1]


def sources(image):
    """The source of each owner, by its file's name."""
    return {owner.name + ".s": "".join(line + "\n" for line in Listing(owner).lines()) for owner in image.owners}
