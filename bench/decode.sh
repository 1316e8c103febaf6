#!/bin/bash
# How many words `decode` reads in a second: the time of 400 million words less that of none.
# Build first: (cd crates/bench_parts && rt run -- decode 1000)
cd "$(dirname "$0")/../crates/bench_parts" || exit 1
for words in 0 400000000; do
    time out/bench_parts decode "$words"
done
