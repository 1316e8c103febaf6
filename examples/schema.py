#!/usr/bin/env python3
"""Judges descriptions by docs/use/description.schema.json, with the few keywords of JSON Schema that it uses.

    schema.py DESC..

Of each description it writes what isn't as the schema says, FILE:LINE:COLUMN: MEMBER: WHY, and nothing where all is.
What a schema can't say, such as that a name stands there once, capfw alone tells. A member that stands twice is warned
of; the last one holds. Status 0: all are as the schema says. Status 1: one isn't. Editors do the same while one types
(docs/use/description.md).
"""
import json
import os
import sys

sys.dont_write_bytecode = True
import manners  # noqa: E402
from places.members import NoJson, parse  # noqa: E402
from places.texts import Found, Text  # noqa: E402
from places.warnings import twice  # noqa: E402
from schemas import UNKNOWN, Judge  # noqa: E402

HERE = os.path.dirname(os.path.abspath(__file__))
SCHEMA = os.path.join(HERE, "..", "docs", "use", "description.schema.json")


def whole():
    with open(SCHEMA, encoding="utf-8") as file:
        return json.load(file)


def spelled(path):
    return "".join(f"[{step}]" if isinstance(step, int) else f".{step}" for step in path) or "."


def range_at(top, path, why):
    """The range of the value at a path, or, of a member that isn't known, that of its name."""
    for step in path[:-1] if why == UNKNOWN else path:
        top = top.get(step) if isinstance(step, str) else top.value[step]
    return top.name_range(path[-1]) if why == UNKNOWN else (top.start, top.end)


def found(text, judge):
    """What of a description isn't as the schema says, in the order of the text."""
    try:
        top = parse(text.text)
    except NoJson as fault:
        return [Found(text, fault.at, fault.at + 1, "", fault.why)]
    faults = dict.fromkeys(judge.faults(json.loads(text.text)))
    return sorted((Found(text, *range_at(top, path, why), spelled(path), why) for path, why in faults),
                  key=lambda it: it.start)


def warned(text):
    """What a description is warned of, where it is JSON."""
    try:
        return list(twice(text, parse(text.text)))
    except NoJson:
        return []


def main(words):
    parser = manners.Words(__doc__)
    parser.add_argument("descriptions", nargs="+")
    judge, status = Judge(whole()), 0
    for file in parser.parse_args(words).descriptions:
        text = Text(file, manners.bytes_in(file))
        for it in found(text, judge):
            print("\n".join(it.lines()))
            status = 1
        for it in warned(text):
            print("\n".join(it.lines()))
    return status


if __name__ == "__main__":
    manners.run(main)
