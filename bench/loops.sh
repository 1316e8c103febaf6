#!/bin/bash
# How many steps a second the program makes, beside a plain interpreter in Rust (bench/interpreter), on the eight loops
# of bench/loops: integer, memory, capability, call, apart, heap, threads, whole; apart is call with code of both
# compartments at addresses that share their slots of decoded words. The table has millions of steps a second of
# processor time, the best of three runs without what a run of one step takes, and how many times the interpreter is
# faster. First both must write the same lines of the first 20,000 steps.
#
#     loops.sh [STEPS]           steps of each run, 20 million by default
#     loops.sh --count [STEPS]   instructions a step by valgrind, of the program by function; 200,000 steps by default
#     loops.sh --model [STEPS]   compares the lines of the interpreter alone, with those of the machine of tests/model;
#                                20,000 steps by default
#
# The program is crates/ct_main/out/ct_main, or CAPFW. Build it first: bin/build. The interpreter is built by cargo;
# where that isn't there, the program alone is measured.
here=$(cd "$(dirname "$0")/.." && pwd) || exit 1
program=$(realpath -m "${CAPFW:-$here/crates/ct_main/out/ct_main}")
plain=
if command -v cargo > /dev/null; then
    cargo build --quiet --release --manifest-path "$here/bench/interpreter/Cargo.toml" || exit 1
    plain=$here/bench/interpreter/target/release/interpreter
fi
form=time steps=20000000
case ${1:-} in
    --count) form=count steps=200000; shift ;;
    --model) form=model steps=20000; shift ;;
esac
if [ "$form" = count ] && ! command -v valgrind > /dev/null; then
    echo "loops.sh: valgrind isn't there" >&2
    exit 1
fi
if [ "$form" = model ] && [ -z "$plain" ]; then
    echo "loops.sh: cargo isn't there" >&2
    exit 1
fi
if [ "$form" != model ] && [ ! -x "$program" ]; then
    echo "loops.sh: there is no program at $program; bin/build makes it" >&2
    exit 1
fi
cd "$here/bench" && exec python3 -B loops.py "$form" "${1:-$steps}" "$program" "$plain"
