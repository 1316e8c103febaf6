#!/usr/bin/env python3
"""Tries each script on random firmware and its runs: none may stumble, and what can be told otherwise must be so.

    runs.py [PROGRAM [COUNT [SEED]]]

The firmware is that of bench/compare_machine.py: two compartments that call one another, a library, three devices,
quotas, keys and tokens, code of random statements; of every other one the devices lie where addresses begin with the
digits c to e. The plain machine of tests/model makes the runs; with a program its runs must be these, its image the
one that describe.py's description links to, and its verdict on the policy that policy.py writes `allow`.

Status 0: nothing differs. Status 1: what differs is printed.
"""
import collections
import contextlib
import io
import json
import os
import random
import re
import shutil
import subprocess
import sys
import tempfile

sys.dont_write_bytecode = True
from paths import BENCH, EXAMPLES  # noqa: E402
import authority  # noqa: E402
import changes  # noqa: E402
import devices  # noqa: E402
import disassemble  # noqa: E402
import map as ram  # noqa: E402
import names  # noqa: E402
import page  # noqa: E402
import picture  # noqa: E402
import policy  # noqa: E402
import schema  # noqa: E402
import sharing  # noqa: E402
import step  # noqa: E402

COUNT, SEED, STEPS = 100, 11, 300
HIGH_BASES = {"uart0": 0xE0000000, "pins": 0xCA5E0010, "clock": 0xD1CE0000}
STORED = re.compile(r"^\d+ store t\d+ c\d+ e\d+ ([0-9a-f]{8}) \d+ ([0-9a-f]+)$", re.M)
TOLD = re.compile(r"^ +> (.*?)(?:  \(.*\))?$", re.M)


def generator(seed):
    """The functions of bench/compare_machine.py and of tests/cases.py; both read the words of the command line."""
    words, sys.argv = sys.argv, ["compare_machine.py", "0", str(seed)]
    sys.path.append(BENCH)
    import compare_machine
    import cases
    sys.argv = words
    return compare_machine.firmware, cases


def written(main, *words, text=""):
    """What a script's main writes by these words and this input."""
    before, sys.stdin = sys.stdin, io.TextIOWrapper(io.BytesIO(text.encode()))
    with contextlib.redirect_stdout(io.StringIO()) as out:
        main(list(words))
    sys.stdin = before
    return out.getvalue()


def said(base, run):
    """The bytes that a serial port said by the lines of a run."""
    return bytes(int(value, 16) & 255 for address, value in STORED.findall(run) if int(address, 16) == base)


def told_faults(firmware, report, run):
    """What the scripts that read a run tell otherwise than it does, by line."""
    text, lines = report + run, run.splitlines()
    rows = written(names.main, text=text).splitlines()
    kinds = [line.split(" ")[1] for line in lines[:-1]]
    if [row.split()[3] for row in rows[1:len(lines)]] != kinds or rows[len(lines)] != lines[-1]:
        yield "names.py: other lines"
    base = next(device["base"] for device in firmware["devices"] if device["name"] == "uart0")
    port = [row for row in rows if row.startswith("uart0 said")]
    if port != [f"uart0 said {said(base, run)!r}"] * bool(said(base, run)):
        yield "names.py: other bytes"
    if len(written(names.main, "--only", "store", text=text).splitlines()) - len(rows) != \
            kinds.count("store") - len(kinds):
        yield "names.py --only store: other lines"
    if written(page.main, "-", text=text).count("<tr><td>") < len(kinds):
        yield "page.py: too few lines"
    found = TOLD.findall(written(step.main, "case.json", str(STEPS), "--told"))
    if found != lines:
        yield "step.py: other lines"


def looked_at(report):
    """Reads the report by each script that takes one, and the firmware by each that takes that."""
    for module in (authority, devices, policy, picture, sharing):
        if not written(module.main, text=report):
            yield f"{module.__name__}.py: nothing"
    if written(changes.main, "report", "report"):
        yield "changes.py: a change from a report to itself"
    for module, file in ((ram, "case.json"), (ram, "case.image"), (disassemble, "case.image")):
        if not written(module.main, file):
            yield f"{module.__name__}.py {file}: nothing"
    if written(schema.main, "case.json"):
        yield "schema.py: not as the schema says"


def program_faults(program, data, report, run):
    """What a program writes otherwise."""
    def ran(*words):
        return subprocess.run([program, *words], capture_output=True).stdout

    if ran("run", "case.json", str(STEPS)).decode() != report + run:
        yield "another run by the program"
    if ran("image", "case.json") != data:
        yield "another image by the program"
    with open("case.policy", "w") as file:
        file.write(written(policy.main, text=report))
    if ran("check", "case.json", "case.policy") != b"allow\n":
        yield "its policy isn't kept"


def write_case(firmware, sources, report, data):
    for name, text in [("case.json", json.dumps(firmware)), ("report", report), *sources.items()]:
        with open(name, "w") as file:
            file.write("".join(line + "\n" for line in text) if isinstance(text, list) else text)
    with open("case.image", "wb") as file:
        file.write(data)


def main(words):
    program = os.path.realpath(words[0]) if words and words[0] else None
    count, seed = [int(word) for word in words[1:3]] + [COUNT, SEED][len(words[1:3]):]
    make, cases = generator(seed)
    chance, faults, kinds = random.Random(seed), [], collections.Counter()
    for n in range(count):
        with contextlib.redirect_stdout(io.StringIO()):
            firmware = make(chance, f"r{n}")
        for device in firmware["devices"] if n % 2 else []:
            device["base"] = HIGH_BASES[device["name"]]
        data, report = cases.image(firmware), cases.report(firmware).rstrip("\n") + "\n"
        run = cases.lines(*cases.modelled(data, STEPS))
        kinds.update(line.split(" ")[1] for line in run.splitlines()[:-1])
        files = [owner["code"]["file"] for owner in firmware["compartments"] + firmware["libraries"]]
        with tempfile.TemporaryDirectory() as folder:
            os.chdir(folder)
            write_case(firmware, {file: cases.SOURCES[file] for file in files}, report, data)
            for told in (told_faults(firmware, report, run), looked_at(report),
                         program_faults(program, data, report, run) if program else []):
                faults += [f"r{n}: {fault}" for fault in told]
            os.chdir(EXAMPLES)
    shutil.rmtree(cases.OUT)
    print("\n".join(faults), end="\n" * bool(faults))
    print(f"{len(faults)} faults in {count} firmwares, whose runs have "
          + ", ".join(f"{many} {kind}" for kind, many in sorted(kinds.items())))
    return 1 if faults or not count else 0


if __name__ == "__main__":
    sys.exit(main(sys.argv[1:]))
