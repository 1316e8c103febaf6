"""Breaks and a prompt for step.py: what a thread has in its registers and frames where it comes to a place."""
import signal
import sys

import plain
from views import Views

HELP = """step [N]        N steps, 1 where N isn't said; an empty line is the same
next            a step; of a call or a jump with a link all up to its way back
finish          on until the innermost frame has ended
continue        on to the next break; only steps that `run` tells of are shown
back [N]        N steps back, 1 where N isn't said: runs again from the beginning
break PLACE     a break at LABEL, OWNER.LABEL or FILE:LINE; without a PLACE lists them
watch AT        stops where the word at a hexadecimal address, or where a register leads, has changed
registers [T]   all that aren't zero, of the thread that runs or of the one named
frames [T]      who called whom, the innermost first
threads         each thread: what it does, and where
memory AT [N]   N granules of 8 bytes from a hexadecimal address, or from where a register leads
objects         the heap's objects
quit            ends the run
The first letters of each are enough; Ctrl-C stops a run at its next step."""
LINK, WORD = 1, 4


class Again(Exception):
    """The run begins anew, and stops at a step."""


NO_PLACE = "no such place, `--symbols` lists the labels:"


class Debugger(Views):
    """A watcher of a run that stops where a thread comes to a break, and hands on all else to a trace. With a prompt
    it reads commands there, without one it writes registers and frames and goes on."""

    def __init__(self, firmware, trace, breaks, prompt):
        self.firmware, self.trace, self.prompt = firmware, trace, prompt
        self.breaks, self.names, self.watched = set(), {}, {}
        # what the run goes on to: an answer for a moment; and the step up to which it is made again in silence
        self.goal, self.until = None, 0
        for place in breaks:
            if not self.add(place):
                plain.refuse(f"{NO_PLACE} {place}")
        # how many steps come before the next stop; none where only a break stops
        self.left = 1 if prompt and not breaks else None
        if prompt and sys.stdin.isatty():
            try:
                import readline  # noqa: F401  lines are edited where it is there
            except ImportError:
                pass
            self.asking = False
            signal.signal(signal.SIGINT, self.interrupt)

    def interrupt(self, *_):
        """Ctrl-C stops a run at its next step; at the prompt it ends all."""
        if self.asking:
            raise KeyboardInterrupt
        self.left = 1

    def add(self, place):
        """Adds a break at each address of a place; whether there is one."""
        file, _, line = place.rpartition(":")
        found = [row.address for row in self.firmware.symbols
                 if row.section == "text" and place in (row.label, f"{row.owner}.{row.label}")]
        rows = [at for at, row in self.firmware.places.items() if (row.file, str(row.line)) == (file, line)]
        found += [at for at in rows if at - 4 not in rows]
        self.breaks.update(found)
        self.names.update({place: found} if found else {})
        return found != []

    # -- the run

    def before(self, machine, moment):
        if machine.count["steps"] < self.until:
            return
        if self.until:
            self.until, self.left, self.goal = 0, 1, None
        self.left = None if self.left is None else self.left - 1
        reached = self.goal is not None and self.goal(machine, moment)
        if moment.pcc.address in self.breaks or self.left == 0 or reached:
            self.goal = None
            self.stop(machine, moment)

    def after(self, machine, moment, lines):
        self.trace.options.told = self.left is None or machine.count["steps"] < self.until
        if self.prompt:
            self.trace.after(machine, moment, [] if machine.count["steps"] < self.until else lines)
        for at, value in self.watched.items():
            now = machine.peek(at, WORD)
            if now != value and not self.until:
                print(f"watch: {at:08x} was {value:08x} and is {now:08x}, by step {machine.count['steps']}")
                self.left = 1
            self.watched[at] = now

    def came(self, machine, device, byte):
        if self.prompt and machine.count["steps"] >= self.until:
            self.trace.came(machine, device, byte)

    def rest(self):
        return self.trace.rest()

    def stop(self, machine, moment):
        thread = self.firmware.report.threads[moment.thread]["name"]
        pc = moment.pcc.address
        statement = self.trace.statement_at(machine, pc)
        print(f"step {machine.count['steps']}: {thread} is at {self.trace.spot_at(pc)}: {statement}".rstrip(": "))
        if not self.prompt:
            self.registers(machine, moment)
            self.frames(machine, moment)
        while self.prompt and not self.command(machine, moment):
            pass

    # -- commands

    def command(self, machine, moment):
        """Reads and carries out a command; whether the run goes on."""
        line = self.line()
        if line is None:
            sys.exit(0)
        word, *more = line.split() or ["step"]
        actions = [("step", self.go), ("continue", self.go_on), ("break", self.set_break), ("quit", self.quit),
                   ("registers", self.registers), ("frames", self.frames), ("memory", self.memory),
                   ("objects", self.objects), ("next", self.next), ("finish", self.finish), ("back", self.back),
                   ("watch", self.watch), ("threads", self.threads)]
        action = next((action for name, action in actions if name.startswith(word)), None)
        try:
            return action(machine, moment, *more)
        except (TypeError, ValueError):
            print(HELP)
            return False

    def line(self):
        """A line of commands; none at the end."""
        if not sys.stdin.isatty():
            line = sys.stdin.readline()
            if line:
                print(f"? {line.rstrip()}")
            return line or None
        self.asking = True
        try:
            return input("? ")
        except EOFError:
            return None
        finally:
            self.asking = False

    def go(self, machine, moment, count="1"):
        self.left = int(count)
        return True

    def go_on(self, machine, moment):
        self.left = None
        return True

    def next(self, machine, moment):
        """Goes on to behind a jump that leaves a link, and else makes a step."""
        statement = self.trace.statement_at(machine, moment.pcc.address).split(None, 1)
        if statement[:1] not in (["cjalr"], ["cjal"], ["jal"]) or not statement[1].startswith(("cra", "ra", "c1")):
            return self.go(machine, moment)
        thread, depth, behind = moment.thread, moment.depth, moment.pcc.address + WORD
        return self.reach(lambda machine, now: now.thread == thread and (
            now.depth < depth or (now.depth, now.pcc.address) == (depth, behind)))

    def finish(self, machine, moment):
        thread, depth = moment.thread, moment.depth
        return self.reach(lambda machine, now: now.thread == thread and now.depth < depth
                          or not machine.threads[thread].frames)

    def reach(self, goal):
        """Goes on until a moment is as wanted."""
        self.left, self.goal = None, goal
        return True

    def back(self, machine, moment, count="1"):
        self.until = max(1, machine.count["steps"] - int(count))
        self.trace.again()
        raise Again

    def watch(self, machine, moment, place):
        at = self.address(moment, place)
        if at % WORD or not machine.in_ram(at, WORD):
            print(f"{at:08x} is no multiple of {WORD} in RAM")
        else:
            self.watched[at] = machine.peek(at, WORD)

    def set_break(self, machine, moment, place=None):
        if place is None:
            rows = [f"    {name} {at:08x}" for name, addresses in self.names.items() for at in addresses]
            print("\n".join(rows or ["    no break"]))
        elif not self.add(place):
            print(f"{NO_PLACE} {place}")

    def quit(self, machine, moment):
        sys.exit(0)
