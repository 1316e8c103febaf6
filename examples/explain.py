#!/usr/bin/env python3
"""Says where in the files a refusal of capfw is, what is wrong there, and what may have been meant.

    capfw WORDS.. | explain.py [--sarif FILE] WORDS..

It takes the words that capfw takes, in the same folder, and what capfw wrote as its input. All of that goes on to the
output, and after a refusal or a denial one line for each thing that is at fault,

    FILE:LINE:COLUMN: MEMBER: NUMBER: WHY

with the line itself, marks under it and hints. MEMBER is a path that jq takes. Of an image it is FILE byte PLACE:
FIELD. Of a path, that of a denial or the one that `why` writes, each step has its entry and its line. A member that
stands twice in the description is warned of, on standard error where nothing was refused.

`--sarif` writes what was found to FILE too, as SARIF 2.1.0. Where GITHUB_ACTIONS is `true`, a line `::error ..`
follows for each, by which a server marks the place. Status 0: nothing was refused, or it was explained. Status 1: the
files aren't those that were refused.
"""
import argparse
import sys

sys.dont_write_bytecode = True
import manners  # noqa: E402
from places import shown  # noqa: E402
from places.calls import Call  # noqa: E402
from places.members import NoJson  # noqa: E402
from places.refusals import explained, warned  # noqa: E402

REFUSED = ("refused ", "denied ")
# what comes where a file isn't the one that a line is about: what the line says of it doesn't hold
OTHER_FILES = (OSError, NoJson, LookupError, AttributeError, TypeError, ValueError, RuntimeError)


def found_of(call, output):
    """What is found for what capfw wrote; None for a line that isn't about these files."""
    lines = output.decode("utf-8", "surrogateescape").splitlines()
    wanted = REFUSED + ("path ",) * (call.words[:1] == ["why"])
    for line in lines if lines and lines[0].startswith(wanted) else []:
        try:
            found = explained(call, line)
        except OTHER_FILES:
            found = []
        yield from [None] if found == [] else found or []


def show(all_found, options, write):
    """Writes what was found as text, to a file in SARIF, and as annotations."""
    for it in all_found:
        write("\n".join(it.lines()))
    if options.sarif:
        with open(options.sarif, "w", encoding="utf-8") as file:
            file.write(shown.sarif(all_found))
    for it in all_found if shown.is_annotated() else []:
        write(shown.annotation(it))


def main(words):
    parser = manners.Words(__doc__)
    parser.add_argument("--sarif", metavar="FILE")
    parser.add_argument("words", nargs=argparse.REMAINDER)
    options = parser.parse_args(words)
    output = manners.input_bytes("what capfw wrote")
    sys.stdout.buffer.write(output)
    sys.stdout.buffer.flush()
    call = Call(options.words)
    found = list(found_of(call, output))
    is_refused = output.startswith(tuple(word.encode() for word in REFUSED))
    write = print if is_refused or found else manners.complain
    show([it for it in found if it] + warned(call), options, write)
    if None in found:
        return manners.complain("the files aren't those that this line is about") and 1
    return 0


if __name__ == "__main__":
    manners.run(main)
