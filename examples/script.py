#!/usr/bin/env python3
"""Makes a script for `capfw run` of a text that is easier to write.

    script.py [TEXT] > FIRMWARE.script      without a name it reads standard input

A line of the text is `@STEP DEVICE BYTES..`, or `@STEP/N DEVICE BYTES..`: then each byte comes N steps after the one
before, and else all before the same step. `@+STEP` counts from the last byte before. BYTES are numbers, 10 or 0x0a,
and texts in double quotes, in which \\n \\r \\t \\0 \\" \\\\ and \\xHH stand for one byte, and any other character for
its bytes in UTF-8. A # outside a text begins a comment. Lines may stand in any order: bytes are written by their steps,
and those of one step as they stand. What is no such line is refused by its number. Which devices there are `run` looks.
"""
import re
import sys

sys.dont_write_bytecode = True
import manners  # noqa: E402

MOST_STEP, MOST_BYTE = 4_000_000_000, 255
ESCAPES = {"n": 10, "r": 13, "t": 9, "0": 0, '"': 34, "\\": 92}
HEAD = re.compile(r"@(\+?)([0-9]+)(?:/([0-9]+))?[ \t]+([^\s\"#]+)")
PIECE = re.compile(r"""[ \t]+(?:(?P<number>0x[0-9a-fA-F]+|[0-9]+)(?=\s|$)|"(?P<text>(?:[^"\\]|\\.)*)"(?=\s|$))""")
CHARACTER = re.compile(r"\\x([0-9a-fA-F]{2})|\\(.)|([^\\])")
COMMENT = re.compile(r"\s*(#.*)?")


class Wrong(Exception):
    """Why a line is none of a text."""


def characters(text):
    """The bytes of what stands between two quotes."""
    for match in CHARACTER.finditer(text):
        digits, escape, plain = match.groups()
        if escape and escape not in ESCAPES:
            raise Wrong(f"\\{escape} stands for nothing")
        if digits:
            yield int(digits, 16)
        else:
            yield from [ESCAPES[escape]] if escape else plain.encode("utf-8", "surrogateescape")


def bytes_of(line, at):
    """The bytes of a line behind its head."""
    found = []
    while not COMMENT.fullmatch(line, at):
        match = PIECE.match(line, at)
        if match is None:
            raise Wrong(f"no byte and no text is written so: {line[at:].strip()[:20]}")
        number, at = match["number"], match.end()
        found += characters(match["text"]) if number is None else [int(number, 16 if "x" in number else 10)]
    if not found or max(found) > MOST_BYTE:
        raise Wrong(f"a byte is 0 to {MOST_BYTE}" if found else "bytes are wanted")
    return found


def rows_of(lines):
    """The rows of a script, a step, a device and a byte, in the order of the text."""
    step = 0
    for number, line in enumerate(lines, 1):
        line = line.strip("\n")
        if COMMENT.fullmatch(line):
            continue
        try:
            head = HEAD.match(line)
            if head is None:
                raise Wrong("@STEP DEVICE is wanted first")
            first = int(head[2]) + (step if head[1] else 0)
            for index, byte in enumerate(bytes_of(line, head.end())):
                step = first + index * int(head[3] or 0)
                if not 1 <= step <= MOST_STEP:
                    raise Wrong(f"a step is 1 to {MOST_STEP}")
                yield step, head[4], byte
        except Wrong as why:
            raise manners.Refusal(f"line {number}: {why}") from None


def main(words):
    parser = manners.Words(__doc__)
    parser.add_argument("text", nargs="?")
    path = parser.parse_args(words).text
    lines = manners.lines_in(path) if path else manners.input_lines("a text of devices' bytes")
    for step, device, byte in sorted(rows_of(lines), key=lambda row: row[0]):
        print(step, device, byte)


if __name__ == "__main__":
    manners.run(main)
