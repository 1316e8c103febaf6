#!/usr/bin/env python3
"""The code of an image by its owners, as digests: what no report tells, and a release must know.

    digests.py IMAGE

Of each compartment and library it writes a line `text OWNER BYTES SHA256`, of the bytes of its instructions; a line
`entries OWNER COUNT SHA256`, of the offsets in the text at which its exports begin, in their order; and of a
compartment a line `data OWNER BYTES SHA256`, of its globals' initial bytes. Of each sealed object it writes a line
`sealed NAME BYTES SHA256`. Linking puts no addresses into a text, so it stays where only another owner changes.
`changes.py --code` compares what this wrote of two builds. Status 2: it is no whole image.
"""
import hashlib
import sys

sys.dont_write_bytecode = True
import manners  # noqa: E402
from places.images import Image  # noqa: E402


def line(kind, name, count, data):
    return f"{kind} {name} {count} {hashlib.sha256(data).hexdigest()}"


def digests(image):
    """A line for each digest."""
    for owner in image.owners:
        offsets = b"".join(row[0].to_bytes(4, "little") for row in owner.exports)
        yield line("text", owner.name, len(owner.text), owner.text)
        yield line("entries", owner.name, len(owner.exports), offsets)
        if owner.kind == "compartment":
            yield line("data", owner.name, len(owner.initial), owner.initial)
    for row in image.sealed:
        yield line("sealed", row[0], len(row[-1]), row[-1])


def main(words):
    parser = manners.Words(__doc__)
    parser.add_argument("image")
    file = parser.parse_args(words).image
    image = Image(manners.bytes_in(file))
    if image.cut:
        raise manners.Refusal(f"{file}: no whole image: the bytes end inside this field: {image.cut}")
    print("\n".join(digests(image)))


if __name__ == "__main__":
    manners.run(main)
