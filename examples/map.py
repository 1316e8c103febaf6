#!/usr/bin/env python3
"""RAM as a firmware lays it out: what stands where, how large it is, and what is left.

    map.py FIRMWARE.json
    map.py FIRMWARE.image

The description or the image is linked and read by the plain model of the tests; both must be ones that the program
accepts. First comes each region in the order of addresses, the slots and the text of a code region apart; `rounding`
is what rounds a region up to a length that a capability can spell. Then follow the sums of each owner, and the heap
with what the quotas may take of it.
"""
import sys

sys.dont_write_bytecode = True
import manners  # noqa: E402
import plain  # noqa: E402
from reports import table  # noqa: E402

SLOT, TABLE_HEAD, TABLE_ROW, TRUSTED_HEAD, THREAD_AREA, FRAME = 8, 16, 16, 16, 160, 64


def title(field):
    return field.rstrip(b"\0").decode()


def owner_regions(owner):
    """The regions of a compartment or a library: base, bytes, whose and what."""
    name, slots = title(owner.name), SLOT * len(owner.slots)
    yield owner.base, slots, name, f"{len(owner.slots)} slots"
    yield owner.base + slots, len(owner.text), name, "text"
    if owner.own:
        yield owner.table, TABLE_HEAD + TABLE_ROW * len(owner.exports), name, "export table"
        yield owner.globals, owner.size, name, f"globals, {len(owner.initial)} bytes initial"


def regions(image):
    """All regions of an image but the heap, in the order of their bases."""
    rows = [row for owner in image.owners + image.libraries for row in owner_regions(owner)]
    rows += [(base, length, title(name), "shared object") for _, name, base, length in image.shared]
    rows += [(row[2], row[3], title(row[1]), f"sealed object of type {row[4]}") for row in image.sealed]
    rows += [(row[2], row[3], title(row[1]), "stack") for row in image.threads]
    areas = TRUSTED_HEAD + sum(THREAD_AREA + FRAME * row[7] for row in image.threads)
    rows.append((image.trusted, areas, "trusted", "registers and frames of threads"))
    return sorted(row for row in rows if row[1])


def region_rows(image):
    """The regions with what rounds them up, and the heap."""
    at = image.ram
    for base, length, owner, what in regions(image) + [(image.heap, image.ram + image.size - image.heap, "heap", "")]:
        if base > at:
            yield at, base - at, "", "rounding"
        yield base, length, owner, what
        at = base + length


def sums(image, rows):
    """Bytes of each owner, and of all that isn't heap."""
    totals = {}
    for _, length, owner, what in rows:
        totals[owner or what] = totals.get(owner or what, 0) + length
    return [(name, length, f"{100 * length / image.size:.1f} %") for name, length in totals.items()]


def heap_lines(firmware):
    """What is left for the heap, and what quotas may take of it."""
    heap = firmware.report.heap["length"]
    limits = sum(entry["limit"] for entry in firmware.report.of_kind("quota"))
    yield f"heap: {heap} of {firmware.image.size} bytes are left; quotas may take {limits}"
    if limits > heap:
        yield "all quotas together may ask for more than there is: allocate may answer -3 or -5 within a quota"


def main(words):
    parser = manners.Words(__doc__)
    parser.add_argument("firmware")
    firmware = plain.firmware_of(parser.parse_args(words).firmware)
    rows = list(region_rows(firmware.image))
    print("\n".join(table([("from", "to", "bytes", "of", "what"), *(
        (f"{base:08x}", f"{base + length:08x}", length, owner, what) for base, length, owner, what in rows)])))
    print("\n".join(["", *table([("of", "bytes", "of RAM"), *sums(firmware.image, rows)]), "", *heap_lines(firmware)]))


if __name__ == "__main__":
    manners.run(main)
