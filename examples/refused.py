"""What a run refuses without a line of `run`, or with one that doesn't say how it went on, for step.py."""
import plain
import traces
from capability_words import number_text
from services import answer_text, unhandled

LINK, ANSWER = 1, 10


class Refused:
    """A watcher of a run that writes each negative answer of a native routine, and of each trap whether an error
    handler was entered, and why not."""

    def __init__(self, firmware, trace):
        self.firmware, self.report, self.trace, self.count = firmware, firmware.report, trace, 0

    def before(self, machine, moment):
        pass

    def came(self, machine, device, byte):
        pass

    def rest(self):
        """A line where nothing was refused."""
        return [] if self.count else ["nothing was refused"]

    def after(self, machine, moment, lines):
        if moment is None:
            return
        texts = [self.trapped(machine, moment, traces.line_of(line)) for line in lines if line.split(" ")[1] == "trap"]
        for text in texts or self.answered(machine, moment):
            thread, actor = self.report.threads[moment.thread]["name"], self.report.compartments[moment.actor]
            print(f"{machine.count['steps']:6} {thread} in {actor}: {text}")
            self.count += 1

    def answered(self, machine, moment):
        """The negative answer of a native routine, and where that was called."""
        place, thread = self.firmware.place_at(moment.pcc.address), machine.threads[moment.thread]
        if place is None or place.owner or len(thread.frames) != moment.depth or not isinstance(thread.status, str):
            return
        value, routine = thread.regs[ANSWER], plain.place_name(place)[1:-1]
        if not value.tag and value.address >> 31 and routine != "return":
            called = self.trace.spot_at(moment.registers[LINK].address - 4)
            for_what = f" of {self.called(machine, moment)}" if routine == "switch" else ""
            yield (f"{routine}{for_what} at {called} answers {number_text(value.address)}"
                   f"{answer_text(routine, value.address)}")

    def called(self, machine, moment):
        """The export that a call is for."""
        entry = self.report.entry.get(moment.registers[6].root)
        return entry["of"] if entry else "nothing"

    def trapped(self, machine, moment, line):
        """A trap, and how it went on."""
        thread = machine.threads[moment.thread]
        text = f"trap at {self.trace.spot_at(moment.pcc.address)}, {traces.trap_text(line)}: "
        if len(thread.frames) == moment.depth:
            return f"{text}handled at {self.trace.spot_at(thread.pcc.address)}"
        end = f"{self.report.compartments[machine.actor(moment.thread)]} is answered -1" if thread.frames else \
            "the thread ends"
        return f"{text}{unhandled(machine, moment)}; the frame is unwound, {end}"
