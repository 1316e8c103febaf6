#!/usr/bin/env python3
"""A run as JSON that trace viewers open (Perfetto's, Chrome's): Trace Event Format, a step as a microsecond.

    trace.py DESC LIMIT [SCRIPT] > FIRMWARE.trace

DESC may be an image. The track `processor` says which thread runs. Each thread has a track: a slice for each frame, by
its export, and in the innermost one for each label while the thread runs there. What `capfw run` has a line of is an
instant; the charge of each quota, and the heap's bytes that are live and that wait for a sweep, are counters. The steps
are made by the plain machine of the tests, which isn't proved.
"""
import json
import sys

sys.dont_write_bytecode = True
import manners  # noqa: E402
import plain  # noqa: E402
import traces  # noqa: E402
from reports import title  # noqa: E402
from usage import HEAD  # noqa: E402

PROCESS, PROCESSOR = 1, 0
IDLE = "no thread is ready"


class Events:
    """Writes events, one a line, as elements of a list of JSON."""

    def __init__(self, firmware):
        self.first = True
        print(json.dumps({"displayTimeUnit": "ms", "otherData": {"firmware": firmware}})[:-1] + ', "traceEvents": [')

    def add(self, phase, at, track, name, **more):
        row = {"ph": phase, "ts": at, "pid": PROCESS, "tid": track, "name": name, **more}
        print(("" if self.first else ",") + json.dumps(row))
        self.first = False

    def end(self):
        print("]}")


class Track:
    """The slices of a track that are open, the outermost first."""

    def __init__(self, events, number):
        self.events, self.number, self.open = events, number, []

    def begin(self, at, name, kind):
        self.events.add("B", at, self.number, name, cat=kind)
        self.open.append((name, kind))

    def end(self, at):
        name, kind = self.open.pop()
        self.events.add("E", at, self.number, name, cat=kind)

    def is_in(self, kind):
        return self.open != [] and self.open[-1][1] == kind

    def leave(self, at, kind):
        """Ends the innermost slice where it is of this kind."""
        if self.is_in(kind):
            self.end(at)

    def stay(self, at, name, kind):
        """Is in a slice of this name and kind, the one that is open or a new one."""
        if not self.is_in(kind) or self.open[-1][0] != name:
            self.leave(at, kind)
            self.begin(at, name, kind)


class Slices:
    """A watcher of a run that writes its events."""

    def __init__(self, firmware, events):
        self.firmware, self.report, self.events = firmware, firmware.report, events
        self.processor = Track(events, PROCESSOR)
        self.threads = [Track(events, number) for number in range(1, len(self.report.threads) + 1)]
        self.depths, self.running, self.heap = [0] * len(self.threads), None, None
        events.add("M", 0, PROCESSOR, "process_name", args={"name": self.report.firmware})
        for track, name in enumerate(["processor", *(row["name"] for row in self.report.threads)]):
            events.add("M", 0, track, "thread_name", args={"name": name})

    def before(self, machine, moment):
        at = machine.count["steps"]
        self.runs(at, moment.thread)
        self.frames(machine, moment.thread, at)
        place = self.firmware.place_at(moment.pcc.address)
        self.threads[moment.thread].stay(at, place.label if place else "elsewhere", "label")

    def after(self, machine, moment, lines):
        at = machine.count["steps"]
        if moment is None:
            self.runs(at, None)
        else:
            for line in lines:
                self.deed(at, moment.thread, traces.line_of(line))
            self.frames(machine, moment.thread, at + 1)
        self.counters(machine, at)

    def came(self, machine, device, byte):
        name = self.report.devices[device]["name"]
        self.events.add("i", machine.count["steps"] + 1, PROCESSOR, f"byte {byte} comes to {name}", cat="byte", s="p")

    def runs(self, at, thread):
        """Which thread runs; none where none is ready."""
        if thread != self.running and self.running is not None:
            self.threads[self.running].leave(at, "label")
        self.running = thread
        self.processor.stay(at, IDLE if thread is None else self.report.threads[thread]["name"], "thread")

    def frames(self, machine, number, at):
        """Has a slice for each frame of a thread."""
        frames, track = machine.threads[number].frames, self.threads[number]
        if len(frames) != self.depths[number]:
            track.leave(at, "label")
        while self.depths[number] > len(frames):
            track.end(at)
            self.depths[number] -= 1
        for frame in frames[self.depths[number]:]:
            track.begin(at, title(self.report.entry[frame.export]), "frame")
        self.depths[number] = len(frames)

    def deed(self, at, thread, line):
        what, by = traces.deed(self.report, line)
        self.events.add("i", at, thread + 1, f"{line.kind}: {what}", cat=line.kind, s="t", args={"line": line.text,
                                                                                                   "by": by})

    def counters(self, machine, at):
        """The counters, where objects have come or gone."""
        rows = [(row.quota, row.live, row.length + HEAD) for row in machine.objects]
        if rows == self.heap:
            return
        self.heap = rows
        for entry in self.report.of_kind("quota"):
            charged = sum(length for quota, live, length in rows if live and quota == entry["number"])
            self.events.add("C", at, PROCESSOR, f"quota {title(entry)}", args={"charged": charged})
        live = sum(length for _, live, length in rows if live)
        whole = sum(length for _, _, length in rows)
        self.events.add("C", at, PROCESSOR, "heap", args={"live": live, "to sweep": whole - live})

    def end(self, at):
        """Ends each slice that is open."""
        for track in [*self.threads, self.processor]:
            while track.open:
                track.end(at)


def main(words):
    parser = manners.Words(__doc__)
    parser.add_argument("desc")
    parser.add_argument("limit", type=int)
    parser.add_argument("script", nargs="?")
    options = parser.parse_args(words)
    firmware = plain.firmware_of(options.desc)
    inputs = plain.inputs_of(firmware, manners.text_in(options.script)) if options.script else []
    events = Events(firmware.report.firmware)
    slices = Slices(firmware, events)
    *_, last = plain.run(firmware, options.limit, inputs, slices)
    slices.end(int(last.split(" ")[3]) + 1)
    events.end()


if __name__ == "__main__":
    manners.run(main)
