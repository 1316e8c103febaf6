#!/usr/bin/env python3
"""Tries explain.py and schema.py on files that aren't the ones that a refusal is about: neither may stumble.

    strays.py [COUNT [SEED]]

Of the mistakes of planted.py it takes the files of one and the line of another, and changes some bytes of the files and
some words of the line at random. Whatever is found must be shown as text, as an annotation and in SARIF.
Status 0: nothing stumbles. Status 1: where it does is printed.
"""
import os
import random
import sys
import tempfile
import traceback

sys.dont_write_bytecode = True
from paths import HERE  # noqa: E402
import explain  # noqa: E402
import planted  # noqa: E402
import schema  # noqa: E402
from places import shown  # noqa: E402
from places.calls import Call  # noqa: E402
from places.refusals import warned  # noqa: E402
from places.texts import Text  # noqa: E402
from schemas import Judge  # noqa: E402

COUNT, SEED = 500, 3
MARKS = b'{}[]",:0a#\n'
WORDS = ["7", "99", "net", "x", "0", "path", "F3", "A2"]


def altered(chance, data):
    """Bytes of which a few are others, gone, or more."""
    data = bytearray(data)
    for _ in range(chance.randrange(4)):
        at = chance.randrange(len(data) + 1)
        kind = chance.randrange(3)
        data[at:at + (chance.randrange(30) if kind else 1)] = \
            [chance.randrange(256)] if kind == 0 else chance.choices(MARKS, k=2) if kind == 1 else []
    return bytes(data)


def line_of(chance, line):
    words = line.split(" ")
    if chance.random() < 0.3:
        words[chance.randrange(len(words))] = chance.choice(WORDS)
    return " ".join(words)


def try_one(chance, rows, judge):
    """A call with the files of one mistake and the line of another."""
    with tempfile.TemporaryDirectory() as folder:
        planted.write_firmware(chance.choice(rows), folder)
        os.chdir(folder)
        for file in sorted(os.listdir()):
            with open(file, "rb") as opened:
                data = opened.read()
            with open(file, "wb") as opened:
                opened.write(altered(chance, data) if chance.random() < 0.3 else data)
        row = chance.choice(rows)
        call, line = Call(row.words), line_of(chance, row.line)
        found = [it for it in explain.found_of(call, line.encode() + b"\n") if it] + warned(call)
        shown.sarif(found)
        for it in found:
            assert list(it.lines()) and shown.annotation(it)
        text = Text.read("gate.json")
        for it in schema.found(text, judge) + schema.warned(text):
            assert list(it.lines())


def main(words):
    count, seed = [int(word) for word in words] + [COUNT, SEED][len(words):]
    chance, rows, faults, judge = random.Random(seed), list(planted.planted()), set(), Judge(schema.whole())
    for _ in range(count):
        try:
            try_one(chance, rows, judge)
        except Exception:
            faults.add("".join(traceback.format_exc().splitlines(keepends=True)[-3:]))
        os.chdir(HERE)
    print("".join(sorted(faults)), end="")
    print(f"{len(faults)} places at which {count} calls with other files stumble")
    return 1 if faults else 0


if __name__ == "__main__":
    sys.exit(main(sys.argv[1:]))
