"""A linker by docs/use/description.md and image.md, for descriptions without faults: the bytes of an image."""
from model import images, reports
from model.assembler import assemble
from model.words import round_length

DEVICE_KINDS = {"uart": 1, "timer": 2, "gpio": 3}
RIGHTS = {"R": 50, "W": 49, "RW": 51, "RC": 55, "WC": 48, "RWC": 59}
POSTURES = ["inherit", "disabled", "enabled"]


def slot_names(owner, own):
    return (["switch"] if own else []) + [row["as"] for row in owner.get("imports", [])] + \
        [quota["name"] for quota in owner.get("quotas", [])] + [f"key{key}" for key in owner.get("keys", [])]


class Linked:
    """A description with the lines of its sources by their files' names."""

    def __init__(self, firmware, sources):
        self.firmware = firmware
        self.own = len(firmware.get("compartments", []))
        self.owners = firmware.get("compartments", []) + firmware.get("libraries", [])
        self.objects = [self.object_of(owner, n, sources) for n, owner in enumerate(self.owners)]
        self.end, self.entry = firmware["ram"]["base"], 1

    def object_of(self, owner, n, sources):
        if "words" in owner["code"]:
            return b"".join(int(word, 16).to_bytes(4, "little") for word in owner["code"]["words"]), b"", {}
        return assemble(sources[owner["code"]["file"]], slot_names(owner, n < self.own))

    def region(self, size):
        """The next region, of at least this size."""
        exponent, length = round_length(max(16, -(-size // 16) * 16))
        unit = max(16, 2 ** exponent)
        base = -(-self.end // unit) * unit
        self.end = base + length
        return base, length

    def index(self, part, name):
        return [row["name"] for row in self.firmware[part]].index(name)

    def export(self, reference):
        """The owner and the index of `owner.export`."""
        owner, export = reference.split(".")
        at = [row["name"] for row in self.owners].index(owner)
        return at, [row["name"] for row in self.owners[at]["exports"]].index(export)

    def import_row(self, row):
        if "device" in row:
            return images.import_row(2, RIGHTS[row["rights"]], self.index("devices", row["device"]))
        if "shared" in row:
            return images.import_row(3, RIGHTS[row["rights"]], self.index("shared", row["shared"]))
        if "sealed" in row:
            return images.import_row(4, 51, self.index("sealed", row["sealed"]))
        if "call" in row:
            return images.import_row(5, 50, *self.export(row["call"]))
        if "service" in row:
            return images.import_row(1, 40, reports.SERVICES.index(row["service"]))
        owner, export = self.export(row["library"])
        return images.import_row(6, 43, owner - self.own, export)

    def slots(self, owner, own):
        rows = ([images.SWITCH[0]] if own else []) + [self.import_row(row) for row in owner.get("imports", [])]
        rows += [images.import_row(7, 50, quota["limit"]) for quota in owner.get("quotas", [])]
        rows += [images.import_row(8, 35, key) for key in owner.get("keys", [])]
        return list(zip(rows, slot_names(owner, own)))

    def export_row(self, row, labels, own):
        offset = labels[row["at"]] if isinstance(row["at"], str) else row["at"]
        posture = 1 + POSTURES.index(row.get("posture", "enabled" if own else "inherit"))
        passes = 2 if row.get("passes") == "data" else 1
        self.entry += 1
        return images.export_row(offset, row.get("stack", 0), row.get("args", 6) if own else 0, posture, passes,
                                 self.entry - 1), row["name"]

    def part(self, n, places):
        owner, (text, initial, labels), own = self.owners[n], self.objects[n], n < self.own
        slots = self.slots(owner, own)
        self.entry += len(slots) + (2 if own else 1)
        exports = [self.export_row(row, labels, own) for row in owner.get("exports", [])]
        (code, length), (table, _), (base, size) = places
        return images.owner(own, owner["name"], code, length, slots, exports, text, table, base, size, initial)

    def image(self):
        firmware, places = self.firmware, []
        for n, (owner, (text, initial, _)) in enumerate(zip(self.owners, self.objects)):
            places.append([self.region(8 * len(slot_names(owner, n < self.own)) + len(text))] + (
                [self.region(16 + 16 * len(owner.get("exports", []))),
                 self.region(max(owner.get("globals", 0), len(initial)))] if n < self.own else [(0, 0), (0, 0)]))
        shared = [(row["name"], *self.region(row["size"])) for row in firmware.get("shared", [])]
        sealed = [(row["name"], *self.region(len(row["bytes"]) // 2), row["type"], bytes.fromhex(row["bytes"]))
                  for row in firmware.get("sealed", [])]
        rows = firmware.get("threads", [])
        stacks = [self.region(row["stack"]) for row in rows]
        trusted, _ = self.region(16 + sum(160 + 64 * row["frames"] for row in rows))
        parts = [self.part(n, place) for n, place in enumerate(places)]
        threads = [(row["name"], *stack, *self.export(row["entry"]), row["priority"], row["frames"])
                   for row, stack in zip(rows, stacks)]
        devices = [(row["name"], DEVICE_KINDS[row["kind"]], row["base"]) for row in firmware.get("devices", [])]
        return images.image(firmware.get("version", 1), firmware.get("quantum", 100), firmware["ram"]["base"],
                            firmware["ram"]["size"], trusted, self.end, firmware.get("sweep", 64),
                            firmware["firmware"], devices, shared, sealed, parts[:self.own], parts[self.own:], threads)


def link(firmware, sources):
    """The bytes of the image of a description, whose sources' lines stand under their files' names."""
    data = Linked(firmware, sources).image()
    assert images.answer(data) == "ok", (firmware["firmware"], images.answer(data))
    return data
