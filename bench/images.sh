#!/bin/bash
# How long an image takes to be read and judged, and to be written again where it is lawful (`upgrade`), beside reading
# its file alone (`cat`): 1, 4 and 16 MiB that are refused (many devices, one list of slots, one text), and the largest
# lawful list of owners, each with as many slots and exports as may be and 64 KiB of text.
source "$(dirname "$0")/common.sh"
python3 -B - "$here/bench" "$work" <<'PYTHON'
import sys
sys.path.insert(0, sys.argv[1])
from laid import Laid, MIB, images as r

SERVICE = r.import_row(1, 40, 2)


def put(name, data):
    open(f"{sys.argv[2]}/{name}", "wb").write(data)


def image(devices=(), owners=(), libraries=(), threads=(), size=8 * MIB, trusted=0, heap=0):
    return r.image(2, 100, 0x80000000, size, trusted, heap, 64, "f", devices, [], [], list(owners),
                   list(libraries), threads)


for mib in (1, 4, 16):
    size = mib * MIB - 512
    put(f"devices-{mib}", image([(f"d{i}", 1, 0x10000000 + 16 * i) for i in range(size // 40)]))
    slots = [r.SWITCH] + [(SERVICE, f"s{i}") for i in range(size // 48)]
    put(f"slots-{mib}", image(owners=[r.owner(True, "c", 0x80000000, 48, slots, [], r.TEXT)]))
    put(f"text-{mib}", image(owners=[r.owner(True, "c", 0x80000000, 48, [r.SWITCH], [], bytes(size))]))


def exports(entry, own):
    row = (64, 0, 3, 2) if own else (0, 0, 1, 1)
    return [(r.export_row(4 * i, *row, entry + i), f"e{i}") for i in range(64)]


laid, entry, owners, libraries, text = Laid(), 1, [], [], bytes(65536)
for i in range(64):
    slots = [r.SWITCH] + [(r.import_row(5, 50, (i * 7 + j) % 64, j % 64), f"i{j}") for j in range(147)]
    code, table, data = laid.placed(8 * 148 + len(text)), laid.placed(16 + 16 * 64), laid.placed(8176)
    owners.append(r.owner(True, f"c{i}", *code, slots, exports(entry + 150, True), text, table[0], *data))
    entry += 2 + 148 + 64
for i in range(32):
    slots = [(r.import_row(6, 43, (i * 5 + j) % 32, j % 64), f"i{j}") for j in range(128)]
    code = laid.placed(8 * 128 + len(text))
    libraries.append(r.owner(False, f"l{i}", *code, slots, exports(entry + 129, False), text))
    entry += 1 + 128 + 64
threads = [(f"t{i}", *laid.placed(256), 63, 63, 1, 96) for i in range(64)]
trusted = laid.placed(16 + 64 * (160 + 64 * 96))[0]
put("largest", image([(f"d{i}", 1, 0x10000000 + 16 * i) for i in range(16)], owners, libraries, threads,
                     64 * MIB, trusted, laid.rest()))
PYTHON
for file in $(ls -v "$work"); do
    used cat "$work/$file"
    alone=$seconds
    used "$program" upgrade "$work/$file"
    printf '%-12s %9d bytes, status %d, %8d bytes written, %s s, cat %s s\n' "$file" "$(stat -c %s "$work/$file")" \
        "$status" "$(stat -c %s "$output")" "$seconds" "$alone"
done
