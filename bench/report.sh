#!/bin/bash
# How long the report of an image takes and how much memory: `runimage` for one step, which accepts the image, boots it
# and writes its report, beside `upgrade`, which accepts it and writes it again. Images of 8, 16, 32 and 64 compartments
# of 148 slots and 64 exports with 64 threads, and the largest with 32 libraries besides; names have 32 letters, and
# each compartment calls and shares with every other. The line of each must be the one that
# tests/model/reports.py makes of the image.
source "$(dirname "$0")/common.sh"
lines=$folder/lines
mkdir "$lines"
python3 -B - "$here/bench" "$work" "$lines" <<'PYTHON'
import sys
sys.path.insert(0, sys.argv[1])
from laid import Laid, MIB, images as r
from model import reports


def largest(count, libraries):
    def exports(entry, own):
        row = (0, 0, 6, 2, 1) if own else (0, 0, 0, 2, 1)
        return [(r.export_row(*row, entry + i), ("e%d" % i).ljust(32, "x")) for i in range(64)]

    laid, entry, owners, lent = Laid(), 1, [], []
    for i in range(count):
        slots = [r.SWITCH] + [(r.import_row(3, 59, (i + j) % 64), ("s%d" % j).ljust(32, "x")) for j in range(40)]
        slots += [(r.import_row(5, 50, (i * 7 + j) % count, j % 64), ("i%d" % j).ljust(32, "x")) for j in range(107)]
        code, table, data = laid.placed(8 * 148 + 16), laid.placed(16 + 16 * 64), laid.placed(16)
        owners.append(r.owner(True, ("c%d" % i).ljust(32, "x"), *code, slots, exports(entry + 150, True), bytes(16),
                              table[0], *data))
        entry += 2 + 148 + 64
    for i in range(libraries):
        slots = [(r.import_row(6, 43, (i * 5 + j) % libraries, j % 64), ("i%d" % j).ljust(32, "x")) for j in range(128)]
        code = laid.placed(8 * 128 + 16)
        lent.append(r.owner(False, ("l%d" % i).ljust(32, "x"), *code, slots, exports(entry + 129, False), bytes(16)))
        entry += 1 + 128 + 64
    shared = [(("o%d" % i).ljust(32, "x"), *laid.placed(16)) for i in range(64)]
    threads = [(("t%d" % i).ljust(32, "x"), *laid.placed(256), count - 1, 63, 1, 96) for i in range(64)]
    trusted = laid.placed(16 + 64 * (160 + 64 * 96))[0]
    return r.image(2, 100, 0x80000000, 4 * MIB, trusted, laid.rest(), 64, "f", [], shared, [], owners, lent,
                   threads)


for count, libraries in ((8, 0), (16, 0), (32, 0), (64, 0), (64, 32)):
    data = largest(count, libraries)
    with open("%s/%02d-%02d" % (sys.argv[2], count, libraries), "wb") as file:
        file.write(data)
    with open("%s/%02d-%02d" % (sys.argv[3], count, libraries), "w") as file:
        file.write(reports.report(data) + "\n")
PYTHON
for file in $(ls "$work"); do
    used "$program" upgrade "$work/$file"
    alone="$seconds s, $held MiB"
    used "$program" runimage "$work/$file" 1
    if ! head -n 1 "$output" | cmp -s - "$lines/$file"; then
        echo "report.sh: of $file the reference makes another line" >&2
        exit 1
    fi
    printf '%-6s line of %8d bytes: upgrade %s; runimage %s s, %s MiB\n' "$file" "$(stat -c %s "$lines/$file")" \
        "$alone" "$seconds" "$held"
done
