#!/bin/bash
# Loads, stores and loads of capabilities a second on 64 KiB, of an array of Rust's own, of `Plain` and
# of `Planes`, in one run; then how much memory of the host each takes for 8 and 64 MiB of RAM.
# The word is the number of calls, 200 million by default.
# Build first: (cd crates/bench_parts && rt run -- decode 1000)
cd "$(dirname "$0")/../crates/bench_parts" || exit 1
python3 - "${1:-200000000}" <<'PYTHON'
import resource, subprocess, sys, time

def run(kind, work, count):
    """Processor seconds of a run, and the most memory that it held, in MiB."""
    before = resource.getrusage(resource.RUSAGE_CHILDREN).ru_utime
    script = "import resource, subprocess, sys; status = subprocess.call(sys.argv[1:], stdout=subprocess.DEVNULL); " \
        "print(resource.getrusage(resource.RUSAGE_CHILDREN).ru_maxrss); sys.exit(status)"
    told = subprocess.run([sys.executable, "-c", script, "out/bench_parts", "planes", kind, work, str(count)],
                          capture_output=True, check=True, text=True)
    return resource.getrusage(resource.RUSAGE_CHILDREN).ru_utime - before, int(told.stdout) / 1024

count = int(sys.argv[1])
for work in ("load", "store", "cap"):
    for kind in ("array", "plain", "planes"):
        seconds = min(run(kind, work, count)[0] for _ in range(3)) - min(run(kind, work, 0)[0] for _ in range(3))
        print(f"{work:5} {kind:6} {count / seconds / 1e6:7.0f} million a second, {seconds / count * 1e9:.2f} ns each")
for mib in (8, 64):
    for kind in ("plain", "planes"):
        seconds, held = run(kind, "make", mib * 1048576)
        print(f"RAM of {mib} MiB, {kind}: {held:.1f} MiB of the host, {seconds:.2f} s to make and write")
PYTHON
