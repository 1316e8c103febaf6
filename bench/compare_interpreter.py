#!/usr/bin/env python3
"""Compares runs of the random firmware of compare_machine.py by the plain interpreter with those of the plain machine.

    compare_interpreter.py COUNT SEED [STEPS]

Build first: (cd bench/interpreter && cargo build --release)
"""
import os
import random
import subprocess
import sys
import tempfile

from compare_machine import COUNT, HERE, SEED, STEPS, firmware
from cases import image, modelled

INTERPRETER = os.path.join(HERE, "interpreter", "target", "release", "interpreter")


def main():
    rng, total = random.Random(SEED), {}
    stdout, sys.stdout = sys.stdout, open(os.devnull, "w")
    differ = 0
    for n in range(COUNT):
        data = image(firmware(rng, f"r{n}"))
        wanted = modelled(data, STEPS)
        with tempfile.NamedTemporaryFile() as file:
            file.write(data)
            file.flush()
            found = subprocess.run([INTERPRETER, file.name, str(STEPS)], capture_output=True, text=True)
        for line in wanted:
            word = line.split()[1]
            total[word] = total.get(word, 0) + 1
        if found.stdout.splitlines() != wanted:
            differ += 1
            pairs = zip(wanted + [""], found.stdout.splitlines() + [found.stderr])
            print(f"r{n}:", next((pair for pair in pairs if pair[0] != pair[1]), "length"), file=stdout)
    print(f"{COUNT} runs, {differ} differ", total, file=stdout)
    sys.exit(differ > 0)


if __name__ == "__main__":
    main()
