#!/usr/bin/env python3
"""What loops.sh measures and compares.

Its words: time, count or model; the number of steps; the program; the interpreter, or nothing.
"""
import collections
import json
import os
import re
import resource
import subprocess
import sys
import tempfile

HERE = os.path.dirname(os.path.abspath(__file__))
LOOPS = os.path.join(HERE, "loops")
NAMES = ["integer", "memory", "capability", "call", "apart", "heap", "threads", "whole"]
CHECKED = 20000


def lines_of(words):
    """What a command writes, as lines."""
    return subprocess.run(words, check=True, capture_output=True, text=True, cwd=LOOPS).stdout.splitlines()


def seconds(words):
    """Processor seconds of a run, of the system's too: each line is one write."""
    before = resource.getrusage(resource.RUSAGE_CHILDREN)
    subprocess.run(words, check=True, stdout=subprocess.DEVNULL, cwd=LOOPS)
    after = resource.getrusage(resource.RUSAGE_CHILDREN)
    return after.ru_utime + after.ru_stime - before.ru_utime - before.ru_stime


def rate(words, steps):
    """Steps a second: the best of three runs, without what a run of one step takes."""
    start = min(seconds([*words, "1"]) for _ in range(3))
    return steps / (min(seconds([*words, str(steps)]) for _ in range(3)) - start)


# ---- instructions

def instructions(words):
    """How many instructions a command runs in each function, without those that it calls."""
    with tempfile.TemporaryDirectory() as work:
        out = os.path.join(work, "callgrind")
        subprocess.run(["valgrind", "--tool=callgrind", f"--callgrind-out-file={out}", *words], check=True,
                       stdout=subprocess.DEVNULL, stderr=subprocess.DEVNULL, cwd=LOOPS)
        return by_function(out)


def by_function(path):
    """Of callgrind's file: a line of costs counts for the function above it, but the one after `calls`."""
    names, counts, function, called = {}, collections.Counter(), None, False
    with open(path) as file:
        for line in file:
            named = re.match(r"(c?fn)=\((\d+)\)(?: (.*))?$", line)
            if named:
                if named.group(3):
                    names[named.group(2)] = named.group(3)
                if named.group(1) == "fn":
                    function = named.group(2)
            elif line.startswith("calls="):
                called = True
            elif re.match(r"[+*\d-]", line):
                if not called:
                    counts[function] += int(line.split()[1])
                called = False
    return collections.Counter({names[function]: count for function, count in counts.items()})


def a_step(words, steps):
    """Instructions a step by function: of twice as many steps, less those of so many."""
    more, less = (instructions([*words, str(n)]) for n in (2 * steps, steps))
    return {name: (count - less[name]) / steps for name, count in more.items() if count - less[name] > steps / 2}


# ---- tables

def checked(name, program, plain, image):
    """Both write the same lines; the program writes the report first."""
    told = lines_of([program, "run", name + ".json", str(CHECKED)])[1:]
    assert told == lines_of([plain, image, str(CHECKED)]), f"{name}: the interpreter writes other lines"


def timed(name, steps, program, plain, image):
    ours = rate([program, "run", name + ".json"], steps)
    if not plain:
        return f"{name:10} {ours / 1e6:9.2f}"
    theirs = rate([plain, image], steps)
    return f"{name:10} {ours / 1e6:9.2f} {theirs / 1e6:12.1f} {theirs / ours:6.1f}"


def counted(name, steps, program, plain, image):
    ours = a_step([program, "run", name + ".json"], steps)
    theirs = f", interpreter {sum(a_step([plain, image], steps).values()):.0f}" if plain else ""
    rows = sorted(ours.items(), key=lambda row: -row[1])
    return "\n".join([f"{name}: {sum(ours.values()):.0f} instructions a step{theirs}",
                      *[f"  {count:7.1f}  {function}" for function, count in rows]])


def modelled(name, steps, plain):
    """The lines of the plain machine, and those of the interpreter on the same image."""
    sys.path.insert(0, os.path.join(HERE, "..", "tests"))
    from model import images
    from model.heap import HeapMachine
    from model.linker import link
    with open(os.path.join(LOOPS, name + ".json")) as file:
        firmware = json.load(file)
    sources = {}
    for owner in firmware["compartments"]:
        with open(os.path.join(LOOPS, owner["code"]["file"])) as file:
            sources[owner["code"]["file"]] = file.read().split("\n")
    data = link(firmware, sources)
    read = images.read(data)
    wanted = HeapMachine(read).run(steps, read.quantum)
    with tempfile.NamedTemporaryFile() as file:
        file.write(data)
        file.flush()
        assert lines_of([plain, file.name, str(steps)]) == wanted, f"{name}: the interpreter writes other lines"
    return f"{name}: {len(wanted)} lines, {wanted[-1]}"


def main():
    form, steps, program, plain = sys.argv[1], int(sys.argv[2]), sys.argv[3], sys.argv[4]
    if form == "time":
        print("loop         program  interpreter  times" if plain else "loop         program")
    for name in NAMES:
        if form == "model":
            print(modelled(name, steps, plain), flush=True)
            continue
        with tempfile.NamedTemporaryFile() as image:
            subprocess.run([program, "image", name + ".json"], check=True, stdout=image, cwd=LOOPS)
            if plain:
                checked(name, program, plain, image.name)
            told = timed if form == "time" else counted
            print(told(name, steps, program, plain, image.name), flush=True)


if __name__ == "__main__":
    main()
