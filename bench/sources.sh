#!/bin/bash
# How long a source of 16 MiB takes to be read and refused or linked, and how much memory (`image`): commas alone, which
# are one faulty line; one label again and again, which is refused at its second; and labels of distinct names, which
# are linked to no text.
source "$(dirname "$0")/common.sh"
python3 - "$work" <<'PYTHON'
import json
import sys

SIZE = 16 << 20


def put(name, text):
    with open(f"{sys.argv[1]}/{name}.s", "w") as file:
        file.write(text)
    with open(f"{sys.argv[1]}/{name}", "w") as file:
        json.dump({
            "firmware": "f", "version": 2, "ram": {"base": 1 << 31, "size": 1 << 20},
            "compartments": [{"name": "app", "code": {"file": f"{name}.s"}, "globals": 16,
                              "exports": [{"name": "main", "at": "l0000000"}]}],
            "threads": [{"name": "t", "entry": "app.main", "priority": 1, "stack": 256, "frames": 2}]}, file)


put("commas", "," * SIZE)
put("label", "a:\n" * (SIZE // 3))
put("labels", "".join("l%07d:\n" % i for i in range(SIZE // 10)))
PYTHON
cd "$work" || exit 1
for name in commas label labels; do
    used "$program" image "$name"
    printf '%-7s %8d bytes: status %d, %s s, %s MiB\n' "$name" "$(stat -c %s "$name.s")" "$status" "$seconds" "$held"
done
