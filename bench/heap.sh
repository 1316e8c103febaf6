#!/bin/bash
# Microseconds of an allocation with its free in a heap of 64 MiB, where the object fits only behind all free
# chunks (the worst case) and where it fits into the first one, by how many objects were put there; every other
# one was freed and flushed, so half as many free chunks lie between them. Then of a flush, which passes every
# chunk.
# Build first: (cd crates/bench_parts && rt run -- decode 1000)
cd "$(dirname "$0")/../crates/bench_parts" || exit 1
python3 -B - <<'PYTHON'
import sys
sys.path.insert(0, "../../bench")
from measure import least

for objects, turns in ((2, 40000), (2000, 40000), (20000, 20000), (200000, 2000), (1000000, 400)):
    empty = least("heap", "last", 0, objects)
    for work, count in (("last", turns), ("first", 40000), ("flush", max(20, turns // 100))):
        seconds = least("heap", work, count, objects) - empty
        print(f"{objects:8} objects, {work:5}: {seconds / count * 1e6:10.3f} us")
PYTHON
