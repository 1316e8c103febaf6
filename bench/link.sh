#!/bin/bash
# How long a description and its sources take to link, and how much memory (`image`): compartments of 148 slots and 64
# exports and libraries of 128 slots and 64 exports, each with a source of 1,024 or 16,384 words of text. Beside it
# LLVM's assembler for RISC-V alone, where it is there, on one text with the same lines and two instructions of
# RISC-V for each fetch of a slot.
source "$(dirname "$0")/common.sh"
python3 - "$work" <<'PYTHON'
import json
import sys

MIB = 1 << 20


def source(imports, words, mark=""):
    """Each slot is fetched once, then labels with jumps between them; so many words in all. With a mark, which its
    labels get, it is RISC-V's."""
    fetch = "auipc a0, 0; lw a0, 0(a0)" if mark else "cimport ca0, %s"
    fetches = [fetch if mark else fetch % name for name in imports]
    lines = ["e%d%s: %s" % (i, mark, text) if i < 64 else text for i, text in enumerate(fetches)]
    lines += ["m%d%s: bnez a0, m%d%s" % (i, mark, i - 1 if i else 0, mark) for i in range(words - 2 * len(imports))]
    return "\n".join(lines) + "\n"


def sample(name, compartments, libraries, words):
    owners, lent, slots = [], [], []
    for i in range(compartments):
        imports = [{"as": "i%d" % j, "call": "c%d.e%d" % ((i * 7 + j) % compartments, j % 64)} for j in range(128)]
        quotas = [{"name": "q%d" % j, "limit": 64} for j in range(16)]
        owners.append({
            "name": "c%d" % i, "code": {"file": "%s-%03d.s" % (name, len(slots))}, "globals": 4096,
            "imports": imports, "quotas": quotas, "keys": [13, 14, 15],
            "exports": [{"name": "e%d" % j, "at": "e%d" % j} for j in range(64)]})
        slots.append([x["as"] for x in imports] + [x["name"] for x in quotas] + ["key13", "key14", "key15"])
    for i in range(libraries):
        imports = [{"as": "i%d" % j, "library": "l%d.e%d" % ((i * 5 + j) % libraries, j % 64)} for j in range(128)]
        lent.append({"name": "l%d" % i, "code": {"file": "%s-%03d.s" % (name, len(slots))}, "imports": imports,
                     "exports": [{"name": "e%d" % j, "at": "e%d" % j} for j in range(64)]})
        slots.append([x["as"] for x in imports])
    thread = {"name": "t", "entry": "c0.e0", "priority": 1, "stack": 256, "frames": 96}
    with open("%s/%s" % (sys.argv[1], name), "w") as file:
        json.dump({"firmware": "f", "version": 2, "ram": {"base": 1 << 31, "size": 64 * MIB}, "compartments": owners,
                   "libraries": lent, "threads": [thread]}, file)
    for i, names in enumerate(slots):
        with open("%s/%s-%03d.s" % (sys.argv[1], name, i), "w") as file:
            file.write(source(names, words))
    with open("%s/%s-riscv.s" % (sys.argv[1], name), "w") as file:
        file.writelines(source(names, words, "_%d" % i) for i, names in enumerate(slots))


sample("01-01", 1, 0, 1024)
sample("08-04", 8, 4, 1024)
sample("64-32", 64, 32, 1024)
sample("64-32-long", 64, 32, 16384)
PYTHON
cd "$work" || exit 1
for name in 01-01 08-04 64-32 64-32-long; do
    alone="not there"
    if command -v llvm-mc > /dev/null; then
        used llvm-mc -triple=riscv32 -filetype=obj "$name-riscv.s"
        alone="status $status, $seconds s, $held MiB"
    fi
    used "$program" image "$name"
    printf '%-10s %8d and %9d bytes: status %d, %9d bytes written, %s s, %s MiB; llvm-mc %s\n' "$name" \
        "$(stat -c %s "$name")" "$(cat "$name"-[0-9][0-9][0-9].s | wc -c)" "$status" "$(stat -c %s "$output")" \
        "$seconds" "$held" "$alone"
done
