#!/bin/bash
# Instructions of the processor for each instruction of a burst, with no machine around it: the code of the loops integer
# and memory of bench/loops, assembled by tests/model, counted by valgrind between 20,000 and 220,000 of them.
# Build first: (cd crates/bench_parts && rt run -- decode 1000); or BENCH_PARTS names a program.
cd "$(dirname "$0")/../crates/bench_parts" || exit 1
python3 -B - "${BENCH_PARTS:-out/bench_parts}" <<'PYTHON'
import re
import subprocess
import sys
sys.path.insert(0, "../../tests/model")
from assembler import assemble

def counted(words):
    told = subprocess.run(["valgrind", "--tool=callgrind", "--callgrind-out-file=/dev/null", sys.argv[1], "burst", *words],
                          check=True, capture_output=True, text=True)
    return int(re.search(r"Collected : (\d+)", told.stderr).group(1))

for name in ("integer", "memory"):
    with open(f"../../bench/loops/{name}.s") as file:
        code = bytes(assemble(file.read().split("\n"), [])[0])
    words = [str(int.from_bytes(code[at:at + 4], "little")) for at in range(0, len(code), 4)]
    few, many = (counted([str(count), *words]) for count in (20000, 220000))
    print(f"{name:8} {(many - few) / 200000:6.1f} instructions each")
PYTHON
