# Part of try.sh: trace.py, whose form trace_form.py looks at.
# of_trace SAMPLE WORD..: how many events there are of each phase
of_trace() {
    inside "$1" trace.py "${@:2}" > "$scratch/trace"
    python3 "$here/trace_form.py" < "$scratch/trace"
}

# packets: a name for the process and two tracks; of its run 12 lines and two bytes; quota and heap at the first step,
# at the allocation, at the free and where its sweep has ended.
counts=$(of_trace packets packets.json 200 packets.script)
expect "trace.py, packets" "M 3 C 8 i 14" "$(sed 's/B [0-9]* E [0-9]* //' <<< "$counts")"
calls=$(grep -o '"ph": "[BE]", "ts": [0-9]*, .*"cat": "frame"' "$scratch/trace" | sed 's/"pid": 1, "tid": 1, "name": //')
expect "trace.py, frames" '"ph": "B", "ts": 1, "net.main", "cat": "frame"
"ph": "B", "ts": 14, "parser.parse", "cat": "frame"
"ph": "B", "ts": 55, "logger.put", "cat": "frame"
"ph": "E", "ts": 60, "logger.put", "cat": "frame"
"ph": "B", "ts": 67, "logger.put", "cat": "frame"
"ph": "E", "ts": 72, "logger.put", "cat": "frame"
"ph": "E", "ts": 83, "parser.parse", "cat": "frame"
"ph": "E", "ts": 109, "net.main", "cat": "frame"' "$calls"
for sample in board serve forge timer; do
    holds "trace.py, $sample" of_trace "$sample" "$sample.json" 200
done
holds "trace.py, gateway" of_trace gateway gateway.json 2000 gateway.script
