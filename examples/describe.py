#!/usr/bin/env python3
"""Writes the description and the sources of an image, and says whether they link to that image, byte for byte.

    describe.py IMAGE FOLDER [--capfw PROGRAM]

FOLDER, which is new or empty, gets FIRMWARE.json and a source OWNER.s for each compartment and library, by their names
in the image. Then `capfw image` of them is compared with IMAGE. Where it is the same, what `audit`, `why` and `check`
say of the description holds of the image, since they speak of the image that a description links to. An image that
capfw didn't lay out, or whose objects have another length than their bytes, may be lawful and yet another one.

Status 0: the same, byte for byte. Status 1: another image, and the first field that differs is told; no answer about
the description is one about the image. Status 2: it is no image that capfw takes, or something can't be read or
written.
"""
import os
import sys

sys.dont_write_bytecode = True
import described  # noqa: E402
import manners  # noqa: E402
from places.images import Image  # noqa: E402
from program import add_program, program_of, ran  # noqa: E402


def write(folder, files):
    """Writes texts into a folder that is new or empty."""
    os.makedirs(folder, exist_ok=True)
    if os.listdir(folder):
        raise manners.Refusal(f"{folder}: it isn't empty")
    for name, text in files.items():
        with open(os.path.join(folder, name), "w", encoding="ascii") as file:
            file.write(text)


def difference(image, data, other):
    """Where another image differs first."""
    at = next((n for n, (one, two) in enumerate(zip(data, other)) if one != two), min(len(data), len(other)))
    it = image.field_at(at)
    return f"byte {at}, {it.name if it else 'its end'}"


def main(words):
    parser = manners.Words(__doc__)
    parser.add_argument("image")
    parser.add_argument("folder")
    add_program(parser)
    options = parser.parse_args(words)
    program, data = program_of(options), manners.bytes_in(options.image)
    status, out = ran([program, "upgrade", options.image])
    if status != 0:
        raise manners.Refusal(f"{options.image}: {out[:200].decode('utf-8', 'replace').strip()}")
    image = Image(data)
    described_as, texts = described.description(image), described.sources(image)
    name = f"{image.firmware}.json"
    write(options.folder, {name: described.laid_out(described_as) + "\n", **texts})
    print(f"{os.path.join(options.folder, name)} describes it, with {', '.join(texts) or 'no source'}")
    status, other = ran([program, "image", name], folder=options.folder)
    if other == data:
        print(f"its image is {options.image}, byte for byte: what `audit`, `why` and `check` say of it holds of the "
              "image")
        return 0
    told = other[:200].decode("utf-8", "replace").strip() if status else difference(image, data, other)
    print(f"its image isn't {options.image}: {told}; what is said of it doesn't hold of the image")
    return 1


if __name__ == "__main__":
    manners.run(main)
