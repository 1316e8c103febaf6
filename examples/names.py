#!/usr/bin/env python3
"""A run's lines with names in place of numbers, what each serial port said, and what is still allocated.

    capfw run FIRMWARE.json 1000 | names.py [--only WORD]..

It reads what `run` or `runimage` writes: the report line, then the lines of the run. Columns: the step, the thread,
the compartment that acted, what it did, and by which entry's authority. What a port *said* is the lowest byte of each
store to its first register, in order. An object that is *still allocated* was allocated in this run and not freed.

With `--only` a line is written where WORD is its kind (call, load, store, allocate, free, trap, off), its thread, its
compartment or the owner of its entry; with several, where one of the kinds, one of the threads and one of the owners
that are named is its own. Sums are of all lines. Lines are written as they come, a few hundred at a time.
"""
import itertools
import sys

sys.dont_write_bytecode = True
import manners  # noqa: E402
import traces  # noqa: E402
from reports import report_read, widths  # noqa: E402

HEAD = ("step", "thread", "in", "did", "what", "by")
AT_ONCE = 500  # lines whose columns are laid out together


def picked(report, words):
    """Whether a line by its columns is one of those that words ask for."""
    threads = {thread["name"] for thread in report.threads}
    for word in words:
        if word not in threads and word not in report.owners and word not in traces.FORMS:
            there = ", ".join([*traces.FORMS, *threads, *report.owners])
            raise manners.Refusal(f"--only {word}: there are {there}")
    kinds = [word for word in words if word in traces.FORMS]
    names = set(words) - set(kinds)

    def is_picked(columns):
        _, thread, compartment, kind, _, by = columns
        return (not kinds or kind in kinds) and (not names & threads or thread in names) and \
            (not names & set(report.owners) or compartment in names or by.split(".")[0] in names)
    return is_picked


def laid_out(rows):
    """The lines of a table of rows that come one after another: columns are as wide as they must be so far."""
    rows, wide = itertools.chain([HEAD], rows), [0] * len(HEAD)
    while some := list(itertools.islice(rows, AT_ONCE)):
        wide = [max(pair) for pair in zip(wide, widths(some))]
        for row in some:
            yield "  ".join(cell.ljust(width) for cell, width in zip(row, wide)).rstrip()


def text(report, texts, words=()):
    """All that this script writes of a run."""
    sums, ends, is_picked = traces.Sums(report), [], picked(report, words)

    def rows():
        for line, columns in traces.lines_of(report, texts):
            if line is None:
                ends.append(columns)
                continue
            sums.add(line)
            if is_picked(columns):
                yield columns

    yield from laid_out(rows())
    yield from ends
    yield from sums.lines()


def main(words):
    parser = manners.Words(__doc__)
    parser.add_argument("--only", action="append", default=[])
    options = parser.parse_args(words)
    for line in text(*report_read(), options.only):
        print(line)


if __name__ == "__main__":
    manners.run(main)
