#!/bin/bash
# Nanoseconds of a slice of 64 granules over RAM of 8 MiB, in `Plain` and in `Planes`: where no granule
# is tagged, where every 64th is, and where each is. The word is the number of slices, a million by default;
# ten times as many where no granule is tagged, since a slice then takes so little.
# Build first: (cd crates/bench_parts && rt run -- decode 1000)
cd "$(dirname "$0")/../crates/bench_parts" || exit 1
python3 -B - "${1:-1000000}" <<'PYTHON'
import sys
sys.path.insert(0, "../../bench")
from measure import least

count = int(sys.argv[1])
for share, what in ((0, "none tagged"), (64, "every 64th tagged"), (1, "each tagged")):
    for kind in ("plain", "planes"):
        slices = count if share else 10 * count
        seconds = least("sweep", kind, share, slices) - least("sweep", kind, share, 0)
        print(f"{what:18} {kind:6} {seconds / slices * 1e9:10.1f} ns a slice")
PYTHON
