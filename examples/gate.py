#!/usr/bin/env python3
"""A gate of a build: calls capfw, and where it refuses or denies, says so where a build's log is read.

    gate.py [--capfw PROGRAM] [--sarif FILE] WORDS..

WORDS are those of capfw; `check DESC POLICY..` may name several policies, which must all be kept. Where nothing is
refused, the output is what capfw writes; of several policies it is one `allow`. Else standard error has each refusal
or denial, behind it what explain.py says of it, and on a server of GitHub the annotations; the output stays empty. A
member that stands twice in the description is warned of there too. `--sarif` writes all that was found to FILE, also
where it is nothing. The status is that of capfw, of several policies the first that isn't 0.
"""
import argparse
import sys

sys.dont_write_bytecode = True
import explain  # noqa: E402
import manners  # noqa: E402
from places.calls import Call  # noqa: E402
from places.refusals import warned  # noqa: E402
from program import add_program, program_of, ran  # noqa: E402


def calls(words):
    """The calls of capfw that words stand for: one for each policy."""
    if words[:1] == ["check"] and len(words) > 3:
        return [["check", words[1], policy] for policy in words[2:]]
    return [words]


def main(words):
    parser = manners.Words(__doc__)
    add_program(parser)
    parser.add_argument("--sarif", metavar="FILE")
    parser.add_argument("words", nargs=argparse.REMAINDER)
    options = parser.parse_args(words)
    program, status, outputs, found = program_of(options), 0, [], []
    for call in calls(options.words):
        ended, output = ran([program, *call])
        if ended != 0:
            manners.complain(output.decode("utf-8", "replace").rstrip("\n") or f"capfw ends with status {ended}")
            found += [it for it in explain.found_of(Call(call), output) if it]
        status = status or ended
        outputs.append(output)
    explain.show(found + warned(Call(options.words)), options, manners.complain)
    if status == 0:
        sys.stdout.buffer.write(outputs[0])
        sys.stdout.buffer.flush()
    return status


if __name__ == "__main__":
    manners.run(main)
