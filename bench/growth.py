#!/usr/bin/env python3
"""What growth.sh measures.

Its words: the number of steps; the program.
"""
import json
import os
import subprocess
import sys
import tempfile
import time

KIB, MIB = 1 << 10, 1 << 20
QUANTUM = 100
GRANULE = 8

# ---- sources

YIELDS = """\
# Counts and yields: eight steps a turn, and one of them is the routine.
main:
    clw a2, 0(cgp)
    addi a2, a2, 1
    csw a2, 0(cgp)
    cimport ct2, yield
    cjalr cra, ct2
    j main
"""

SLEEPS = """\
# Sleeps a million ticks, again and again.
main:
    lui a0, 244
    cimport ct2, sleep
    cjalr cra, ct2
    j main
"""

NESTS = """\
# Calls itself so deep and comes back, again and again: twelve steps a call, the return among them, at any depth.
main:
    li a0, {depth}
    cimport ct1, down
    cimport ct2, switch
    cjalr cra, ct2
    j main
down:
    addi a0, a0, -1
    beqz a0, out
    cmove cs0, cra
    cimport ct1, down
    cimport ct2, switch
    cjalr cra, ct2
    cmove cra, cs0
out:
    cret
"""

LIVES = """\
# Objects of 1 to 128 bytes in a ring: each turn puts a new one into the place of the oldest, which is freed. A turn has
# 24 steps; the first ones, which find no object, have 17.
main:
    lui s1, {high}          # the bytes of the ring, less one
    addi s1, s1, {low}
    li a4, 1103515245
turn:
    mul tp, tp, a4          # a generator of numbers
    addi tp, tp, 1237
    srli a1, tp, 25
    addi a1, a1, 1
    cimport ca0, quota
    cimport ct2, allocate
    cjalr cra, ct2
    cincaddr ct1, cgp, t0
    clc ca1, 0(ct1)
    csc ca0, 0(ct1)
    addi t0, t0, 8
    and t0, t0, s1
    cgettag a2, ca1
    beqz a2, turn
    cimport ca0, quota
    cimport ct2, free
    cjalr cra, ct2
    j turn
"""

FREES = """\
# An allocation and its free, fifteen steps a turn: an object waits in quarantine in all but the first turn.
main:
    cimport ca0, quota
    li a1, 8
    cimport ct2, allocate
    cjalr cra, ct2
    cmove ca1, ca0
    cimport ca0, quota
    cimport ct2, free
    cjalr cra, ct2
    j main
"""


def integers():
    """The source of the integer loop of loops.sh."""
    with open(os.path.join(os.path.dirname(os.path.abspath(__file__)), "loops", "integer.s")) as file:
        return file.read()


# ---- descriptions

HEAP = {
    "imports": [{"as": "allocate", "service": "allocate"}, {"as": "free", "service": "free"}],
    "quotas": [{"name": "quota", "limit": 2147483647}],
}


def described(ram, threads=1, stack=256, frames=2, sweep=64, exports=(), **more):
    """A firmware of one compartment and threads that begin in its `main`; `more` are the compartment's members."""
    app = {"name": "app", "code": {"file": "app.s"}, "globals": 16, **more}
    app["exports"] = [{"name": "main", "at": "main"}, *exports]
    rows = [{"name": f"t{i}", "entry": "app.main", "priority": 1, "stack": stack, "frames": frames}
            for i in range(threads)]
    return {"firmware": "growth", "version": 2, "ram": {"base": 2147483648, "size": ram}, "sweep": sweep,
            "quantum": QUANTUM, "compartments": [app], "threads": rows}


# ---- runs

def comes(limit, first, period):
    """How often what comes in a step, and again each so many steps, has come in so many."""
    return (limit - first) // period + 1 if limit >= first else 0


def summary(limit, calls=0, allocations=0, frees=0):
    """The last line of a run that ends at its limit."""
    return (f"end limit steps {limit} ticks {(limit - 1) // QUANTUM} calls {calls} devices 0 "
            f"allocations {allocations} frees {frees} traps 0")


def stop(name, told):
    sys.exit(f"growth.sh: {name}: {told}")


class Firmware:
    """A firmware in a folder, and runs of it."""

    def __init__(self, name, folder, program, description, source):
        self.name, self.folder, self.program = name, folder, program
        with open(os.path.join(folder, "growth.json"), "w") as file:
            json.dump(description, file)
        with open(os.path.join(folder, "app.s"), "w") as file:
            file.write(source)

    def words(self, limit):
        return [self.program, "run", "growth.json", str(limit)]

    def checked(self, limit, wanted):
        """A run whose last line is the summary wanted; the MiB that it held at most."""
        run = subprocess.Popen(self.words(limit), stdout=subprocess.PIPE, cwd=self.folder)
        tail = subprocess.Popen(["tail", "-n", "1"], stdin=run.stdout, stdout=subprocess.PIPE, text=True)
        run.stdout.close()
        held = 0
        while run.poll() is None:
            held = max(held, most_held(run.pid))
            time.sleep(0.01)
        told = tail.communicate()[0].rstrip("\n")
        if run.returncode != 0:
            stop(self.name, f"status {run.returncode}: {told}")
        if told != wanted:
            stop(self.name, f"it ends with\n  {told}\nand not with\n  {wanted}")
        return held / 1024

    def seconds(self, limit):
        """Processor seconds of a run, the best of three, of the system's too: each line is one write."""
        return min(self.once(limit) for _ in range(3))

    def once(self, limit):
        run = subprocess.Popen(self.words(limit), stdout=subprocess.DEVNULL, cwd=self.folder)
        _, status, usage = os.wait4(run.pid, 0)
        run.returncode = os.waitstatus_to_exitcode(status)
        if run.returncode != 0:
            stop(self.name, f"status {run.returncode}")
        return usage.ru_utime + usage.ru_stime


def most_held(pid):
    """KiB that a process has held at most; none of it once it has ended."""
    try:
        with open(f"/proc/{pid}/status") as file:
            return max([int(line.split()[1]) for line in file if line.startswith("VmHWM:")], default=0)
    except OSError:
        return 0


def measured(name, program, steps, description, source, before=1, counts=lambda limit: {}):
    """Nanoseconds a step after the first ones, seconds of a run of the first ones, and MiB of the host."""
    with tempfile.TemporaryDirectory() as folder:
        firmware = Firmware(name, folder, program, description, source)
        limit = before + steps
        held = firmware.checked(limit, summary(limit, **counts(limit)))
        start = firmware.seconds(before)
        return (firmware.seconds(limit) - start) / steps * 1e9, start, held


# ---- tables

def table(*heads):
    print("| " + " | ".join(heads) + " |\n|" + "---|" * len(heads), flush=True)


def row(*cells):
    print("| " + " | ".join(cells) + " |", flush=True)


def threads(program, steps):
    table("threads", "ns a step", "ns a turn of 8 steps with its yield")
    for count in [1, 4, 16, 64]:
        firmware = described(64 * KIB, threads=count, imports=[{"as": "yield", "service": "yield"}])
        step, _, _ = measured(f"threads {count}", program, steps, firmware, YIELDS)
        row(str(count), f"{step:.1f}", f"{8 * step:.0f}")


def sleepers(program, steps):
    table("threads that sleep", "ns a step")
    for count in [1, 4, 16, 64]:
        firmware = described(64 * KIB, threads=count, imports=[{"as": "sleep", "service": "sleep"}])
        step, _, _ = measured(f"sleepers {count}", program, steps, firmware, SLEEPS)
        row(str(count), f"{step:.1f}")


def nested(depth, told, program, steps, **more):
    """Nanoseconds a step of calls so deep."""
    def counts(limit):
        return {"calls": sum(comes(limit, 7 + 9 * i, 12 * depth) for i in range(depth))}
    firmware = described(64 * KIB, frames=96, imports=[{"as": "down", "call": "app.down"}],
                         exports=[{"name": "down", "at": "down", "args": 1, "passes": "data"}], **more)
    return measured(told, program, steps, firmware, NESTS.format(depth=depth), counts=counts)[0]


def frames(program, steps):
    table("calls nested", "ns a step", "ns of the 12 steps with a call and its return")
    for depth in [1, 4, 16, 60, 95]:
        step = nested(depth, f"nested {depth}", program, steps)
        row(str(depth), f"{step:.1f}", f"{12 * step:.0f}")


def stacks(program, steps):
    table("bytes of stack", "ns a step", "ns of the 12 steps with a call and its return")
    for size in [256, 1024, 4096, 16384]:
        step = nested(1, f"stack {size}", program, steps, stack=size)
        row(f"{size:,}", f"{step:.1f}", f"{12 * step:.0f}")


def heap(program, steps):
    table("live objects", "ns a step", "ns of the 24 steps with an allocation and a free")
    for count in [16, 256, 4096, 32768]:
        filled = 4 + 17 * count

        def counts(limit):
            return {"allocations": min(comes(limit, 14, 17), count) + comes(limit, filled + 10, 24),
                    "frees": comes(limit, filled + 23, 24)}
        high, low = divmod(GRANULE * count - 1 + 2048, 4096)
        source = LIVES.format(high=high, low=low - 2048)
        firmware = described(8 * MIB, **{**HEAP, "globals": GRANULE * count})
        step, _, _ = measured(f"objects {count}", program, steps, firmware, source, filled, counts)
        row(f"{count:,}", f"{step:.1f}", f"{24 * step:.0f}")


def sweep(program, steps):
    table("granules a slice", "ns a step", "granules passed a step")
    ram = 512 * KIB

    def counts(limit):
        return {"allocations": comes(limit, 7, 15), "frees": comes(limit, 14, 15)}
    for rate in [1, 64, 1024, ram // GRANULE]:
        firmware = described(ram, sweep=rate, **HEAP)
        step, _, _ = measured(f"sweep {rate}", program, steps, firmware, FREES, counts=counts)
        row(f"{rate:,}", f"{step:.1f}", f"{min(rate, ram // GRANULE // 15):,}")


def ram(program, steps):
    table("RAM", "ns a step", "seconds of the start", "MiB of the host")
    for size, told in [(64 * KIB, "64 KiB"), (MIB, "1 MiB"), (8 * MIB, "8 MiB"), (64 * MIB, "64 MiB")]:
        step, start, held = measured(f"RAM {told}", program, steps, described(size), integers())
        row(told, f"{step:.1f}", f"{start:.3f}", f"{held:.1f}")


def main():
    steps, program = int(sys.argv[1]), sys.argv[2]
    for number, quantity in enumerate([threads, sleepers, frames, stacks, heap, sweep, ram]):
        if number > 0:
            print()
        quantity(program, steps)


if __name__ == "__main__":
    main()
