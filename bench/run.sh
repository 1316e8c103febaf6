#!/bin/bash
# Steps per second of `run`: a loop of the machine's five first instructions (auipcc, clc, addi, csw and the register
# jump) that loads and stores in the globals, and the smallest loop, a jump to itself. The second word is the number of
# steps, 20 million by default.
source "$(dirname "$0")/common.sh"
limit=${2:-20000000}
python3 - "$here/samples/tiny/tiny.json" "$work" <<'PYTHON'
import json, sys
for name, words in (("five", ["00000097", "0001b283", "00150513", "00a1a023", "00008067"]), ("jump", ["0000006f"])):
    firmware = json.load(open(sys.argv[1]))
    firmware["compartments"][0]["code"]["words"] = words
    json.dump(firmware, open(f"{sys.argv[2]}/{name}", "w"))
PYTHON
for name in five jump; do
    used "$program" run "$work/$name" "$limit"
    printf '%s: status %d, %s\n  %s s, %s steps a second\n' "$name" "$status" "$(tail -n 1 "$output")" "$seconds" \
        "$(echo "$limit / $seconds" | bc)"
done
