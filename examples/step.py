#!/usr/bin/env python3
"""A trace of a run by the lines of its sources, and a debugger; by the plain machine of the tests, which isn't proved.

    step.py DESC LIMIT [SCRIPT]                each step: who, where, the statement, what changed; why a trap came
    step.py DESC LIMIT [SCRIPT] --told         the steps alone that have a line in `capfw run`
    step.py DESC LIMIT [SCRIPT] --break PLACE  registers and frames where a thread comes to PLACE, of one or several
    step.py DESC LIMIT [SCRIPT] --prompt       reads commands at the first step or at breaks, `help` among them
    step.py DESC LIMIT [SCRIPT] --refused      negative answers of services and of calls, traps and how they went on
    step.py DESC LIMIT [SCRIPT] --usage        the deepest stacks, frames, quotas and heap: what bounds must be
    step.py DESC LIMIT [SCRIPT] --profile      how many steps were made behind each label
    step.py DESC LIMIT [SCRIPT] --coverage     the lines that no step reached
    step.py DESC --symbols                     the address of each label
    step.py DESC --listing                     each word of the text with its label and its line

DESC may be an image: then there are no lines, and labels are its exports. PLACE is LABEL, OWNER.LABEL or FILE:LINE.
`--from STEP` and `--thread NAME` leave other steps out of the trace. A line that `capfw run` writes of a step stands
below the step, behind `>`, and by names in brackets.
"""
import collections
import sys

sys.dont_write_bytecode = True
import manners  # noqa: E402
import plain  # noqa: E402
from coverage import Coverage  # noqa: E402
from debugger import Again, Debugger  # noqa: E402
from refused import Refused  # noqa: E402
from reports import table  # noqa: E402
from stepped import Trace  # noqa: E402
from usage import Usage  # noqa: E402


class Profile:
    """Counts the steps behind each label."""

    def __init__(self, firmware):
        self.firmware, self.counts, self.idle = firmware, collections.Counter(), 0

    def before(self, machine, moment):
        place = self.firmware.place_at(moment.pcc.address)
        name = f"{place.owner}.{place.label}" if place and place.owner else place.label if place else "elsewhere"
        self.counts[name] += 1

    def after(self, machine, moment, lines):
        self.idle += moment is None

    def came(self, machine, device, byte):
        pass

    def rest(self):
        """The table of the counts."""
        rows = self.counts.most_common() + ([("no thread is ready", self.idle)] if self.idle else [])
        total = sum(count for _, count in rows) or 1
        return table([("steps", "share", "behind"), *((n, f"{100 * n / total:.1f} %", name) for name, n in rows)])


def symbols(firmware):
    for row in firmware.symbols:
        place = f"  {row.file}:{row.line}" if row.file else ""
        yield f"{row.address:08x} {row.section} {row.owner}.{row.label}{place}"


def listing(firmware):
    machine = plain.HeapMachine(firmware.image)
    yield from table((f"{at:08x}", f"{machine.peek(at, 4):08x}", f"{place.owner}.{plain.place_name(place)}",
                      f"{place.file}:{place.line}" if place.file else "", place.statement)
                     for at, place in sorted(firmware.places.items()))


def options_of(words):
    parser = manners.Words(__doc__)
    parser.add_argument("desc")
    parser.add_argument("limit", type=int, nargs="?")
    parser.add_argument("script", nargs="?")
    parser.add_argument("--from", dest="start", type=int, default=1)
    parser.add_argument("--thread")
    parser.add_argument("--break", dest="breaks", action="append", default=[])
    for name in ("told", "prompt", "refused", "usage", "profile", "coverage", "symbols", "listing"):
        parser.add_argument("--" + name, action="store_true")
    options = parser.parse_args(words)
    if not options.limit and not (options.symbols or options.listing):
        parser.error("a LIMIT of steps is wanted")
    return options


def watcher_of(firmware, options):
    """What watches a run by these options."""
    for name, kind in (("profile", Profile), ("usage", Usage), ("coverage", Coverage)):
        if getattr(options, name):
            return kind(firmware)
    trace = Trace(firmware, options)
    if options.refused:
        return Refused(firmware, trace)
    return Debugger(firmware, trace, options.breaks, options.prompt) if options.breaks or options.prompt else trace


def show(firmware, options, inputs):
    """Runs the firmware and writes what its watcher shows, and the run's last line."""
    watcher = watcher_of(firmware, options)
    while True:
        try:
            *_, end = plain.run(firmware, options.limit, inputs, watcher)
            break
        except Again:
            continue
    for line in watcher.rest():
        print(line)
    print(f"       > {end}")


def main(words):
    options = options_of(words)
    firmware = plain.firmware_of(options.desc)
    if options.symbols or options.listing:
        print("\n".join(symbols(firmware) if options.symbols else listing(firmware)))
        return
    show(firmware, options, plain.inputs_of(firmware, manners.text_in(options.script)) if options.script else [])


if __name__ == "__main__":
    manners.run(main)
