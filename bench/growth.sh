#!/bin/bash
# How the cost of a run grows, one quantity changed at a time: threads that yield, threads that sleep, frames (calls
# nested so deep), the stack that a call hands on, live objects of the heap, the rate of the sweep, RAM. Each firmware is
# written into a temporary folder.
# The tables, in Markdown, have processor time, the best of three runs without what a shorter run takes: one step, or
# the steps that fill the heap.
# A run that ends otherwise than it ought to stops the script with a message.
#
#     growth.sh [STEPS]          steps of each run, 5 million by default
#
# The program is crates/ct_main/out/ct_main, or CAPFW. Build it first: bin/build. MiB of the host are read in /proc
# while the program runs, so that a run of fewer than a million steps may tell less.
here=$(cd "$(dirname "$0")/.." && pwd) || exit 1
program=$(realpath -m "${CAPFW:-$here/crates/ct_main/out/ct_main}")
if [ ! -x "$program" ]; then
    echo "growth.sh: there is no program at $program; bin/build makes it" >&2
    exit 1
fi
exec python3 -B "$here/bench/growth.py" "${1:-5000000}" "$program"
