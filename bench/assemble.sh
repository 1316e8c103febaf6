#!/bin/bash
# How long a source takes from text to a linked image (`image`): 5,200 blocks of twelve lines are about a mebibyte, and
# twice and four times as many show that the time grows with the source's length. Beside it LLVM's assembler for RISC-V
# alone, where it is there, on the same lines with two instructions of RISC-V for each fetch of a slot.
source "$(dirname "$0")/common.sh"
python3 - "$work" <<'PYTHON'
import json
import sys

BLOCK = """\
label_{k}:
 {fetch}
 li a0, 305419896
 addi a1, a0, -4
 slli a2, a1, 3
 {store}
 beq a0, a1, label_{k}
 bnez a2, label_{before}
 {load}
 mulhu a3, a2, a1
 # a comment
 j label_{k}
"""
OURS = {"fetch": "cimport ct0, uart", "store": "csw a0, 0(ct0)", "load": "clc ct1, 8(csp)"}
RISCV = {"fetch": "auipc t0, 0; lw t0, 0(t0)", "store": "sw a0, 0(t0)", "load": "lw t1, 8(sp)"}


def put(name, text):
    with open(f"{sys.argv[1]}/{name}", "w") as file:
        file.write(text)


def source(blocks, words):
    return "".join(BLOCK.format(k=k, before=max(k - 1, 0), **words) for k in range(blocks))


for blocks in (5200, 10400, 20800):
    put(f"{blocks}.s", source(blocks, OURS))
    put(f"{blocks}-riscv.s", source(blocks, RISCV))
    put(blocks, json.dumps({
        "firmware": "f", "ram": {"base": 1 << 31, "size": 2 << 20},
        "devices": [{"name": "uart0", "kind": "uart", "base": 268435456}],
        "compartments": [{"name": "app", "code": {"file": f"{blocks}.s"}, "globals": 16,
                          "imports": [{"as": "uart", "device": "uart0", "rights": "W"}],
                          "exports": [{"name": "main", "at": "label_0"}]}],
        "threads": [{"name": "t", "entry": "app.main", "priority": 1, "stack": 256, "frames": 2}]}))
PYTHON
cd "$work" || exit 1
for blocks in 5200 10400 20800; do
    alone="not there"
    if command -v llvm-mc > /dev/null; then
        used llvm-mc -triple=riscv32 -mattr=+m -filetype=obj "$blocks-riscv.s"
        alone="status $status, $seconds s, $held MiB"
    fi
    used "$program" image "$blocks"
    printf '%6d blocks, %8d bytes: status %d, %8d bytes written, %s s, %s MiB; llvm-mc %s\n' "$blocks" \
        "$(stat -c %s "$blocks.s")" "$status" "$(stat -c %s "$output")" "$seconds" "$held" "$alone"
done
