#!/usr/bin/env python3
"""Runs a firmware over altered scripts, and tells what it found: traps, frames unwound, objects lost, runs without end.

    fuzz.py [--capfw PROGRAM | --plain] [--runs N] [--seed N] [--out FOLDER] DESC LIMIT SCRIPT

It begins with SCRIPT, alters bytes and steps of it, takes rows out and puts some in, and goes on from what brought new
lines. Each finding is told once, by its deed, with its place in the sources, and with a script that shows it: rows
without which it shows as well are taken out. `--out` writes these scripts to FOLDER as N.script. The same seed (0 where
none is said) makes the same scripts. N is 200 where it isn't said. Runs are the program's, or with `--plain`, slower,
those of the plain machine, which finds the places in any case; it isn't proved. An object is lost where more of its
quota are left in the end than SCRIPT leaves. Status 0: nothing is found. Status 1: something is.
"""
import os
import random
import re
import sys
import tempfile

sys.dont_write_bytecode = True
import manners  # noqa: E402
import plain  # noqa: E402
import traces  # noqa: E402
from program import add_program, program_of, ran  # noqa: E402
from reports import title  # noqa: E402
from services import unhandled  # noqa: E402

TELLING = 0, 1, 127, 128, 255
MOST_TRIES = 100  # of taking rows out of a script
KINDS = "uart", "gpio"


class Places:
    """A watcher of a run that keeps, by the line of each trap, where it came and how it went on."""

    def __init__(self, firmware):
        self.firmware, self.traps = firmware, {}

    def before(self, machine, moment):
        pass

    def came(self, machine, device, byte):
        pass

    def after(self, machine, moment, lines):
        for line in lines:
            if line.split(" ")[1] == "trap":
                place = self.firmware.place_at(moment.pcc.address)
                handled = len(machine.threads[moment.thread].frames) == moment.depth
                how = "handled" if handled else f"the frame is unwound, {unhandled(machine, moment)}"
                where = "elsewhere" if place is None else plain.place_name(place) if not place.file else \
                    f"{place.file}:{place.line} {plain.place_name(place)}"
                self.traps[line] = f"{traces.trap_text(traces.line_of(line))} at {where}: {how}"


class Fuzzer:
    """A firmware, how it is run, and what was found of it."""

    def __init__(self, options, firmware, folder):
        self.options, self.firmware, self.report = options, firmware, firmware.report
        self.program = None if options.plain else program_of(options)
        self.path, self.image = os.path.join(folder, "script"), os.path.join(folder, "image")
        self.random = random.Random(options.seed)
        self.devices = [row["name"] for row in self.report.devices if row["kind"] in KINDS]
        self.seen, self.left, self.end = set(), {}, "finished"

    def lines(self, rows):
        """The lines of a run by a script of these rows."""
        text = "".join(f"{step} {device} {byte}\n" for step, device, byte in rows)
        if self.program is None:
            inputs = plain.inputs_of(self.firmware, text)
            return plain.run(self.firmware, self.options.limit, inputs, Places(self.firmware))
        with open(self.path, "w", encoding="utf-8") as file:
            file.write(text)
        status, output = ran([self.program, "run", self.options.desc, str(self.options.limit), self.path])
        if status:
            raise manners.Refusal(output.decode("utf-8", "replace").rstrip("\n") or f"capfw ends with status {status}")
        return output.decode().splitlines()[1:]

    def found(self, rows):
        """The findings of a script, each a key, and the line of its first trap or object; what kinds of lines came."""
        *lines, end = self.lines(rows)
        told, findings, kinds, sums = [traces.line_of(line) for line in lines], {}, set(), traces.Sums(self.report)
        for line in told:
            kinds.add((line.kind, line.thread, line.entry, line.export, line.cause, line.code))
            sums.add(line)
            if line.kind == "trap":
                findings.setdefault(("trap", line.actor, line.cause, line.code, line.register), line)
        how = end.split(" ")[1]
        for line in sums.live.values() if how != "limit" else ():
            findings[("lost", line.entry)] = line
        lost = {quota: sum(line.entry == quota for line in sums.live.values()) for _, quota, *_ in findings}
        findings = {key: line for key, line in findings.items()
                    if key[0] != "lost" or lost[key[1]] > self.left.get(key[1], 0)}
        if how != self.end:
            findings["end", how] = None
        return findings, kinds, lost, how

    def begin(self, rows):
        """Runs the script as it is: what it leaves, and how it ends, is no finding; its traps are."""
        findings, kinds, self.left, self.end = self.found(rows)
        return {key: line for key, line in findings.items() if key[0] == "trap"}, kinds

    def altered(self, rows):
        """Some rows altered."""
        rows = list(rows)
        for _ in range(self.random.randint(1, 4)):
            at = self.random.randrange(len(rows)) if rows else 0
            step, device, byte = rows[at] if rows else (1, self.random.choice(self.devices), 0)
            new = self.random.choice([byte ^ 1 << self.random.randrange(8), self.random.choice(TELLING),
                                      self.random.randrange(256)])
            way = self.random.randrange(5)
            if way < 2:
                rows[at:at + 1] = [(step, device, new)]
            elif way == 2:
                rows[at:at + 1] = []
            elif way == 3:
                rows.insert(at, (step, self.random.choice(self.devices), new))
            else:
                rows[at:at + 1] = [(self.random.randint(1, self.options.limit), device, byte)]
        return sorted(rows, key=lambda row: row[0])

    def smaller(self, rows, key):
        """A script without rows that its finding doesn't need."""
        tries, length = 0, len(rows)
        while length:
            at = 0
            while at < len(rows) and tries < MOST_TRIES:
                fewer, tries = rows[:at] + rows[at + length:], tries + 1
                if key in self.found(fewer)[0]:
                    rows = fewer
                else:
                    at += length
            length //= 2
        return rows

    def told(self, key, rows):
        """A finding in words."""
        line = self.found(rows)[0][key]
        if key[0] == "end":
            return f"the run ends as {key[1]}, and that of the script as {self.end}"
        if key[0] == "lost":
            quota = title(self.report.entry[line.entry])
            return f"still allocated: {line.length} bytes on {quota}, since step {line.step}"
        places = Places(self.firmware)
        text = "".join("%d %s %d\n" % row for row in rows)
        plain.run(self.firmware, self.options.limit, plain.inputs_of(self.firmware, text), places)
        where = f"trap in {self.report.compartments[line.actor]}, step {line.step}"
        return f"{where}: {places.traps.get(line.text, line.text)}"

    def search(self, first):
        """Each finding once, with the script that shows it."""
        pool = [first]
        findings, kinds = self.begin(first)
        for number in range(self.options.runs + 1):
            if number:
                rows = self.altered(self.random.choice(pool))
                findings, new, _, _ = self.found(rows)
                pool += [rows] if new - kinds else []
                kinds |= new
            for key in sorted(set(findings) - self.seen, key=str):
                self.seen.add(key)
                small = self.smaller(rows if number else first, key)
                yield self.told(key, small), small


def main(words):
    parser = manners.Words(__doc__)
    add_program(parser)
    parser.add_argument("--plain", action="store_true")
    parser.add_argument("--runs", type=int, default=200)
    parser.add_argument("--seed", type=int, default=0)
    parser.add_argument("--out")
    parser.add_argument("desc")
    parser.add_argument("limit", type=int)
    parser.add_argument("script")
    options = parser.parse_args(words)
    firmware = plain.firmware_of(options.desc)
    text = manners.text_in(options.script)
    plain.inputs_of(firmware, text)
    first = [(int(step), name, int(byte)) for step, name, byte in map(str.split, re.findall("[^\n]+", text))]
    count = 0
    if options.out:
        os.makedirs(options.out, exist_ok=True)
    with tempfile.TemporaryDirectory() as folder:
        for count, (told, rows) in enumerate(Fuzzer(options, firmware, folder).search(first), 1):
            print(f"{count}. {told}", *("    %d %s %d" % row for row in rows), sep="\n", flush=True)
            if options.out:
                with open(os.path.join(options.out, f"{count}.script"), "w", encoding="utf-8") as file:
                    file.write("".join("%d %s %d\n" % row for row in rows))
    print(f"{count} found in {options.runs} runs of seed {options.seed}")
    return 1 if count else 0


if __name__ == "__main__":
    manners.run(main)
