"""The report line of an image by docs/use/report.md and image.md alone, and how its owners reach its compartments.

They are spelled and read by images.py.
"""
import json

from model import images as r

KINDS = ["service", "device", "shared", "sealed", "call", "library", "quota", "key"]
DEVICES = ["uart", "timer", "gpio"]
POSTURES = ["inherit", "disabled", "enabled"]
PASSES = ["capabilities", "data"]
# the names of slots' rights by their packed bits: a native routine; R, W and RW of a device, an object or a seal;
# RC, WC and RWC of a shared object; a library's code; a key
RIGHTS = {40: "GL LD MC EX", 50: "GL LD", 49: "GL SD", 51: "GL SD LD", 55: "GL LG LM LD MC", 48: "GL SD MC",
          59: "GL LG SD LM LD MC", 43: "GL LG LM LD MC EX", 35: "GL US SE"}
SERVICES = ["switch", None, "yield", "sleep", "wait", "wake", "allocate", "free", "remaining", "token_key", "token_new",
            "token_open", "token_free"]
CODE, GLOBALS, STACK = "GL LG LM LD MC EX", "GL LG SD LM LD MC", "LG SD LM SL LD MC"


def word(field):
    return r.title(field).decode()


def export_of(owner, index):
    """An export by the name of its owner, a point, and its own; and its row."""
    _, row, field = owner.exports[index]
    return word(owner.name) + "." + word(field), row


def slot(image, owner, at, row, field):
    """The members of a slot that stands at an address."""
    kind, packed, (first, second, _) = KINDS[row[0] - 1], row[1], r.numbers(row)
    out = {"kind": kind, "name": word(field), "rights": RIGHTS[packed]}
    if kind == "service":
        out.update(base=65536 + 16 * first, length=8, of=SERVICES[first])
    elif kind == "device":
        _, title, _, base = image.devices[first]
        out.update(base=base, length=16, of=word(title))
    elif kind == "shared":
        _, title, base, length = image.shared[first]
        out.update(base=base, length=length, of=word(title))
    elif kind == "sealed":
        _, title, base, length, seal = image.sealed[first][:5]
        out.update(base=base, length=length, of=word(title), type=seal)
    elif kind == "call":
        to = image.owners[first]
        out.update(base=to.table + 16 + 16 * second, length=16, of=export_of(to, second)[0])
    elif kind == "library":
        to = image.libraries[first]
        out.update(base=to.base, length=to.length, of=export_of(to, second)[0])
    elif kind == "quota":
        out.update(base=at, length=8, limit=first)
    else:
        out.update(base=first, length=1)
    return out


def entries(image):
    """The entries in the order of their numbers."""
    out = []

    def add(owner, **members):
        out.append(dict(members, number=len(out) + 1, owner=word(owner)))

    for p in image.owners + image.libraries:
        add(p.name, kind="code", base=p.base, length=p.length, rights=CODE)
        if p.own:
            add(p.name, kind="globals", base=p.globals, length=p.size, rights=GLOBALS)
        for index, (_, row, field) in enumerate(p.slots):
            add(p.name, **slot(image, p, p.base + 8 * index, row, field))
        for index, (_, row, field) in enumerate(p.exports):
            stack, (args, posture, passes) = r.numbers(row)[0], row[8:11]
            members = {"kind": "export", "name": word(field), "posture": POSTURES[posture - 1]}
            if p.own:
                members.update(base=p.table + 16 + 16 * index, length=16, rights="GL LD", args=args, stack=stack,
                               passes=PASSES[passes - 1])
            else:
                members.update(base=p.base, length=p.length, rights=CODE)
            add(p.name, **members)
    for t in image.threads:
        add(t[1], kind="stack", base=t[2], length=t[3], rights=STACK)
    return out


def edges(image):
    """Pairs of compartments: a call that passes capabilities, or one shared object with letter C in both."""
    out = set()
    holders = [{r.numbers(row)[0] for _, row, _ in p.slots if row[0] == 3 and "MC" in RIGHTS[row[1]].split()}
               for p in image.owners]
    for a, p in enumerate(image.owners):
        for _, row, _ in p.slots:
            b, index, _ = r.numbers(row)
            if row[0] == 5 and b != a and image.owners[b].exports[index][1][10] == 1:
                out.add((min(a, b), max(a, b)))
        for b in range(a + 1, len(image.owners)):
            if holders[a] & holders[b]:
                out.add((a, b))
    return sorted(map(list, out))


def ways(image):
    """How each compartment and library reaches each compartment: both names, and the answer of `why`. It is the least
    path: fewest members, and among these the least numbers from the left, libraries after compartments."""
    owners = [("c", n) for n in range(len(image.owners))] + [("l", n) for n in range(len(image.libraries))]
    names = {owner: word(p.name) for owner, p in zip(owners, image.owners + image.libraries)}
    steps = {owner: [] for owner in owners}
    for a, b in edges(image):
        steps["c", a].append(("c", b))
        steps["c", b].append(("c", a))
    for owner, p in zip(owners, image.owners + image.libraries):
        for _, row, _ in p.slots:
            if row[0] == 6:
                steps["l", r.numbers(row)[0]].append(owner)
    for owner in owners:
        best, front = {owner: (owner,)}, [(owner,)]
        while front:
            found = {}
            for path in front:
                for step in steps[path[-1]]:
                    if step not in best:
                        found[step] = min(found.get(step, path + (step,)), path + (step,))
            best.update(found)
            front = list(found.values())
        for to in owners[:len(image.owners)]:
            path = " ".join(names[member] for member in best.get(to, ()))
            yield names[owner], names[to], "path " + path if path else "none"


def report(data):
    """The report line of an image."""
    assert r.answer(data) == "ok", r.answer(data)
    image = r.read(data)
    threads = []
    for t in image.threads:
        row = image.owners[t[4]].exports[t[5]][1]
        threads.append({"entry": int.from_bytes(row[12:16], "little"), "name": word(t[1]), "priority": t[6]})
    whole = {
        "compartments": [word(p.name) for p in image.owners],
        "devices": [{"base": d[3], "kind": DEVICES[d[2] - 1], "name": word(d[1])} for d in image.devices],
        "edges": edges(image),
        "entries": entries(image),
        "firmware": word(image.name),
        "heap": {"base": image.heap, "length": image.ram + image.size - image.heap},
        "libraries": [word(p.name) for p in image.libraries],
        "quantum": image.quantum,
        "threads": threads,
    }
    return json.dumps(whole, sort_keys=True, separators=(",", ":"))


# ---- the images

CAPABILITIES, DATA = 1, 2


def board(passes):
    """Two compartments, a library, two threads. What the first calls of the second passes capabilities or data."""
    app = r.owner(True, "app", 0x80000000, 112, [
        r.SWITCH, (r.import_row(6, 43, 0, 0), "digit"), (r.import_row(5, 50, 1, 0), "put"),
        (r.import_row(1, 40, 6), "allocate"), (r.import_row(7, 50, 64), "q")],
        [(r.export_row(0, 0, 6, 3, 1, 8), "main")], bytes(72), 0x80000070, 0x80000090, 16)
    driver = r.owner(True, "driver", 0x800000a0, 32, [r.SWITCH, (r.import_row(2, 49, 0), "uart")],
                     [(r.export_row(0, 0, 1, 3, passes, 13), "put")], bytes(16), 0x800000c0, 0x800000e0, 16)
    hexes = r.owner(False, "hex", 0x800000f0, 16, [], [(r.export_row(0, 0, 0, 1, 1, 15), "digit")], bytes(8))
    return r.image(1, 20, 0x80000000, 4096, 0x80000300, 0x80000550, 64, "board", [("uart0", 1, 0x10000000)], [], [],
                   [app, driver], [hexes], [("t", 0x80000100, 256, 0, 0, 1, 2), ("u", 0x80000200, 256, 0, 0, 1, 2)])


def services():
    """A compartment that imports every service, and shares an object with R, W, RC and WC."""
    slots = [r.SWITCH] + [(r.import_row(1, 40, n), "s%d" % n) for n in range(2, 13)]
    slots += [(r.import_row(3, packed, 0), "r%d" % packed) for packed in (50, 49, 55, 48)]
    app = r.owner(True, "app", 0x80000000, 144, slots, [], bytes(4), 0x80000090, 0x800000a0, 16)
    return r.image(1, 1, 0x80000000, 4096, 0x800000d0, 0x800000e0, 64, "services", [("time", 2, 0)],
                   [("ring", 0x800000b0, 16)], [], [app], [], [])


RWC, RW = 59, 51


def sharing(rights, passes):
    """Compartments a and b import one shared object, a with RWC and b with these rights; c calls b's export, which
    passes capabilities or data."""
    def ring(packed):
        return (r.import_row(3, packed, 0), "ring")

    a = r.owner(True, "a", 0x80000000, 32, [r.SWITCH, ring(RWC)], [], bytes(4), 0x80000020, 0x80000030, 16)
    b = r.owner(True, "b", 0x80000040, 32, [r.SWITCH, ring(rights)], [(r.export_row(0, 0, 1, 3, passes, 9), "f")],
                bytes(4), 0x80000060, 0x80000080, 16)
    c = r.owner(True, "c", 0x80000090, 32, [r.SWITCH, (r.import_row(5, 50, 1, 0), "f")], [], bytes(4), 0x800000b0,
                0x800000c0, 16)
    return r.image(1, 100, 0x80000000, 4096, 0x800001e0, 0x800002d0, 64, "sharing", [], [("ring", 0x800000d0, 16)], [],
                   [a, b, c], [], [("t", 0x800000e0, 256, 1, 0, 1, 1)])


def reported():
    """Each of these images, with its name."""
    return (("tiny", r.tiny()), ("board", board(DATA)), ("open", board(CAPABILITIES)), ("shared", sharing(RWC, DATA)),
            ("plain", sharing(RW, DATA)), ("passing", sharing(RWC, CAPABILITIES)), ("services", services()),
            ("large", r.large()))
