#!/usr/bin/env python3
"""What the gate costs, crate by crate: runs `rt ci` at the top of the repository, and prints processor minutes.

    bench/gate.py              runs the gate, with what earlier runs on this machine kept
    bench/gate.py --anew       the same from nothing
    bench/gate.py --session N  watches a gate that runs already, in the session N, until it ends

Columns: the crate's own proof, its tests' proofs and runs, its must-fail edits, all. A process is seen twice a second,
and counts in its crate's row by what it had used when it was last seen. What processes used after that, and what works
for no crate, is the row `rest`, so that the sum is what the gate took; without it where another session is watched."""
import os, re, resource, subprocess, sys, time
from collections import defaultdict

TICKS = os.sysconf("SC_CLK_TCK")


def processes():
    """Gives each process: its number with its beginning, its session, its processor seconds, its words and its folder."""
    for name in os.listdir("/proc"):
        if not name.isdigit():
            continue
        try:
            stat = open(f"/proc/{name}/stat").read().rpartition(")")[2].split()
            words = open(f"/proc/{name}/cmdline").read().split("\0")
            folder = os.readlink(f"/proc/{name}/cwd")
        except OSError:
            continue
        yield (int(name), stat[19]), int(stat[3]), (int(stat[11]) + int(stat[12])) / TICKS, words, folder


def place(words, folder):
    """Gives the crate that a process works for, and for which column; None where it is neither a proof nor a test."""
    crate = next((words[k + 1] for k, it in enumerate(words) if it == "--crate-name"), None)
    if crate is None:
        found = re.search(r"/crates/(\w+)", folder)
        crate = found[1] if found else None
    if crate is None:
        return None
    if "/rt-edit-" in folder:
        return crate, "edits"
    return crate, "tests" if "--test" in words or crate.endswith("_tests") else "proof"


def watch(session, is_over):
    seen = {}
    while not is_over():
        for pid, its, seconds, words, folder in processes():
            key = place(words, folder) if its == session else None
            if key:
                seen[pid] = key, seconds
        time.sleep(0.5)
    return seen


def table(seen, whole=None):
    cost = defaultdict(lambda: defaultdict(float))
    for (crate, column), seconds in seen.values():
        cost[crate][column] += seconds / 60
    if whole is not None:
        cost["rest"]["rest"] = whole / 60 - sum(seconds for _, seconds in seen.values()) / 60
    rows = sorted(((sum(it.values()), crate, it) for crate, it in cost.items()), reverse=True)
    print("crate                 proof  tests  edits    all")
    for every, crate, it in rows:
        print(f"{crate:20} {it['proof']:6.1f} {it['tests']:6.1f} {it['edits']:6.1f} {every:6.1f}")
    sums = {column: sum(it[column] for _, _, it in rows) for column in ("proof", "tests", "edits")}
    total = sum(every for every, _, _ in rows)
    print(f"{'all':20} {sums['proof']:6.1f} {sums['tests']:6.1f} {sums['edits']:6.1f} {total:6.1f}")


def main():
    words = sys.argv[1:]
    if words[:1] == ["--session"]:
        session = int(words[1])
        table(watch(session, lambda: not any(its == session for _, its, _, _, _ in processes())))
        return 0
    os.chdir(os.path.join(os.path.dirname(os.path.abspath(__file__)), ".."))
    gate = subprocess.Popen(["rt", "ci", *words], start_new_session=True)
    seen = watch(gate.pid, lambda: gate.poll() is not None)
    used = resource.getrusage(resource.RUSAGE_CHILDREN)
    table(seen, used.ru_utime + used.ru_stime)
    return gate.returncode


if __name__ == "__main__":
    sys.exit(main())
