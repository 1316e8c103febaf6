"""What the prompt of step.py shows of a run at a step: registers, frames, threads, memory, objects."""
from capability_words import cap_text, register_name
from reports import title
from traces import NAMES

GRANULE = 8


class Views:
    """Of a debugger, which has a `firmware` and a `trace`: what some commands write."""

    def threads(self, machine, moment):
        for number, thread in enumerate(machine.threads):
            state = {str: str(thread.status), int: f"sleeps for {thread.status} ticks", tuple: "waits"}[
                type(thread.status)]
            state = "runs" if number == moment.thread else state
            pcc = moment.pcc if number == moment.thread else thread.pcc
            where = f" at {self.trace.spot_at(pcc.address)}" if thread.frames else ""
            print(f"    {self.firmware.report.threads[number]['name']} {state}{where}, {len(thread.frames)} frames")

    def thread_of(self, moment, name):
        """The number of a thread by its name, or of the one that runs."""
        names = [row["name"] for row in self.firmware.report.threads]
        return moment.thread if name is None else names.index(name)

    def registers(self, machine, moment, name=None):
        number = self.thread_of(moment, name)
        for n, cap in enumerate(moment.registers if number == moment.thread else machine.threads[number].regs):
            if cap.word or cap.tag:
                print(f"    {register_name(n, cap):5} {self.cap_text(machine, cap)}")

    def cap_text(self, machine, cap):
        return cap_text(self.firmware.report, cap, rights=True, keys=machine.keys)

    def frames(self, machine, moment, name=None):
        number, report = self.thread_of(moment, name), self.firmware.report
        thread = machine.threads[number]
        at = (moment if number == moment.thread else thread).pcc.address
        for frame in reversed(thread.frames):
            name = report.compartments[frame.actor]
            print(f"    in {name}, at {self.trace.spot_at(at)}; entered by {title(report.entry[frame.export])}")
            at = frame.saved[0].address if frame.saved else 0

    def address(self, moment, place):
        """Where a register leads, or an address in hexadecimal digits."""
        bare = place.removeprefix("c")
        return moment.registers[NAMES.index(bare)].address if bare in NAMES else int(place, 16)

    def memory(self, machine, moment, place, count="4"):
        at = self.address(moment, place)
        for address in range(at - at % GRANULE, at - at % GRANULE + GRANULE * int(count), GRANULE):
            if machine.in_ram(address, GRANULE):
                cap = machine.g[(address - machine.ram) // GRANULE]
                print(f"    {address:08x} {cap.word & 0xFFFFFFFF:08x} {cap.word >> 32:08x}"
                      + (f"  {self.cap_text(machine, cap)}" if cap.tag else ""))

    def objects(self, machine, moment):
        for row in machine.objects:
            quota = self.firmware.report.entry[row.quota]
            state = "live" if row.live else "freed, not yet swept"
            print(f"    n{row.number} {row.base:08x} {row.length} bytes, {state}, by {quota['owner']}.{quota['name']}")
