#!/usr/bin/env python3
"""What the built program does where memory is refused: each allocation of a run in turn.

    memory.py PROGRAM WORK     called by memory.sh, whose WORK/refusing.so counts allocations and refuses them

A row is a sample, or a row of the tables beside this one, so what it is to write with ample memory was found apart
from the program. It is run once without the library, and then with the first allocation refused, the second, and so
on, up to a run that makes no refused one: once with that allocation alone refused, and once with all from it on. By
docs/use/errors.md a run of which memory was wanted ends with status 10 and has written nothing. Any other run ends and
writes as with ample memory: it can do without what was refused. Nothing goes to standard error. What differs is a
fault: another status, a part of the output, a signal, a run of more than a minute.
"""
import os
import shutil
import subprocess
import sys
from collections import Counter

sys.dont_write_bytecode = True
from answers import DENIED, names_of, status_of  # noqa: E402

HERE = os.path.dirname(os.path.abspath(__file__))
PROGRAM, WORK = sys.argv[1:]
FILES, CASES, LOG = (os.path.join(WORK, name) for name in ("files", "cases", "log"))
MOST_SECONDS = 60
MOST_CALLS = 10 ** 9
NO_MEMORY = 10, b""
MOST_BYTES = 16_777_216

COMMANDS = "audit image run runimage why upgrade check demo".split()

# Of each table the rows that are run here, None for all of them: each command, and each status but 9, which no want of
# memory gives.
ROWS = {
    "samples": None,
    "rows": "image runimage runimage_upgraded upgrade upgrade_again why_passing check_allowed check_several "
            "no_steps no_file missing_1 check_no_policy open nowhere mnemonic no_room undeclared why_small_name "
            "check_device check_apart check_no_form check_no_name",
    "images": "altered_version altered_rights",
    "reports": "report_tiny report_board report_open report_shared report_plain report_passing report_services "
               "report_large",
    "scripts": "input input_image script_tab script_missing",
    "heap": "demo_0",
}


def content(*path):
    with open(os.path.join(*path), "rb") as file:
        return file.read()


def put(name, data):
    with open(os.path.join(FILES, name), "wb") as file:
        file.write(data)


# ---- rows: words, and what is due

def of_tables():
    """The rows that ROWS names; some of them have a sample's sources."""
    for table, names in ROWS.items():
        folder = os.path.join(CASES, table)
        os.mkdir(folder)
        made = subprocess.run([sys.executable, os.path.join(HERE, table + ".py"), folder], stdout=subprocess.PIPE,
                              check=True, text=True)
        for line in made.stdout.splitlines():
            file, path = line.split("=", 1)
            shutil.copy(path, os.path.join(FILES, file))
        for name in names.split() if names else names_of(folder):
            put(name, content(folder, name))
            words = content(folder, name + ".args").decode().splitlines()
            yield FILES, [name if word == "{}" else word for word in words], content(folder, name + ".stdout")


def of_sizes():
    """A file of as many bytes as one may have, which isn't JSON, and one of a byte more."""
    put("most", bytes(MOST_BYTES))
    yield FILES, ["audit", "most"], b"refused 4 description F1 firmware 0 0\n"
    put("large", bytes(MOST_BYTES + 1))
    yield FILES, ["audit", "large"], b"refused 3 large large\n"


# ---- runs

def ended(folder, words, **environment):
    """The status and the output of a run, and its fault where it has one that no output could excuse."""
    try:
        run = subprocess.run([PROGRAM, *words], cwd=folder, env=environment, stdin=subprocess.DEVNULL,
                             capture_output=True, timeout=MOST_SECONDS)
    except subprocess.TimeoutExpired:
        return None, f"it ran for more than {MOST_SECONDS} s"
    if run.returncode < 0:
        return None, f"signal {-run.returncode}"
    if run.stderr:
        return None, f"on standard error: {run.stderr!r}"
    return (run.returncode, run.stdout), None


def refused(folder, words, first, last):
    """A run with these allocations refused: what came of it, its fault, and its calls."""
    open(LOG, "wb").close()
    answer, fault = ended(folder, words, LD_PRELOAD=os.path.join(WORK, "refusing.so"), REFUSED_LOG=LOG,
                          REFUSED_FROM=str(first), REFUSED_TO=str(last))
    return answer, fault, content(LOG)


def text_of_answer(answer):
    status, output = answer
    return f"status {status}, {len(output)} bytes: {output[:60]!r}"


class Row:
    """The runs of a row: how many, their faults, and how often each status came where memory was refused."""

    def __init__(self, folder, words, due):
        self.folder, self.words, self.due = folder, words, (status_of(due), due)
        self.runs, self.faults, self.allocations = 0, [], 0
        self.alone, self.onward = Counter(), Counter()

    def kind(self):
        """What the row's runs are counted under, in the order of the table: its command, or its refusal."""
        command, status = self.words[0], self.due[0]
        if status:
            return status, 0, f"{'denied' if status == DENIED else 'refused'} {status}"
        is_scripted = command in ("run", "runimage") and len(self.words) == 4
        return 0, COMMANDS.index(command), command + is_scripted * ", with a script"

    def judge(self, when, answer, fault, allowed):
        self.runs += 1
        if not fault and answer not in allowed:
            fault = text_of_answer(answer)
        if fault:
            self.faults.append(f"{' '.join(self.words)}, {when}: {fault}")

    def refuse(self, last_of, counts, when):
        number, is_reached = 1, True
        while is_reached:
            answer, fault, calls = refused(self.folder, self.words, number, last_of(number))
            is_reached = b"-" in calls
            allowed = [self.due, NO_MEMORY] if is_reached else [self.due]
            self.judge(f"{when} {number} refused", answer, fault, allowed)
            if is_reached:
                counts[answer[0] if answer else "none"] += 1
                number += 1
            else:
                self.allocations = len(calls)

    def run(self):
        self.judge("with ample memory", *ended(self.folder, self.words), [self.due])
        self.refuse(lambda number: number, self.alone, "allocation")
        self.refuse(lambda number: MOST_CALLS, self.onward, "all from allocation")
        if not self.allocations:
            self.faults.append(f"{' '.join(self.words)}: no allocation was seen")


# ---- the table

def statuses(counts):
    """How often each status came, as `10: 57, 0: 2`."""
    return ", ".join(f"{status}: {count}" for status, count in counts.most_common()) or "none"


def line(*cells):
    print("{:22} {:>4}  {:>11}  {:22}  {}".format(*cells).rstrip(), flush=True)


def main():
    for folder in (FILES, CASES):
        os.mkdir(folder)
    kinds = {}
    for table in (of_tables, of_sizes):
        for row in (Row(*made) for made in table()):
            kinds.setdefault(row.kind(), []).append(row)
    line("command or refusal", "rows", "allocations", "one refused", "all from one on refused")
    for kind, rows in sorted(kinds.items()):
        for row in rows:
            row.run()
        line(kind[-1], len(rows), sum(row.allocations for row in rows),
             *(statuses(sum(counts, Counter())) for counts in zip(*((row.alone, row.onward) for row in rows))))
    every = [row for rows in kinds.values() for row in rows]
    faults = [fault for row in every for fault in row.faults]
    print("\n".join(faults) if faults else f"all {sum(row.runs for row in every)} runs as expected")
    return 1 if faults else 0


if __name__ == "__main__":
    sys.exit(main())
