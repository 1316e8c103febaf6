# Part of try.sh: names.py, page.py and step.py where values and addresses of a run begin with the digit e.
# bytes/bytes.s sends each byte from 0xe0 to 0xef, one in three steps from the seventh on, to a port at 0xe0000000;
# then it writes 0xe9e9e9e9 to pins at 0xea000000 and reads the byte that came there.
bytes_run() {
    local n
    for n in {0..15}; do
        printf '%d store t0 c0 e4 e0000000 1 e%x\n' $((7 + 3 * n)) "$n"
    done
    echo "57 store t0 c0 e5 ea000000 4 e9e9e9e9"
    echo "58 load t0 c0 e5 ea000004 4 000000e9"
    echo "end finished steps 60 ticks 0 calls 0 devices 18 allocations 0 frees 0 traps 0"
}
bytes_named() {
    local n
    echo "step  thread  in     did    what                  by"
    for n in {0..15}; do
        printf '%-5d e2      eight  store  uart0 data e%x         eight.uart\n' $((7 + 3 * n)) "$n"
    done
    echo "57    e2      eight  store  pins output e9e9e9e9  eight.pins"
    echo "58    e2      eight  load   pins input 000000e9   eight.pins"
    bytes_run | tail -1
    echo "uart0 said b'$(printf '\\x%x' {224..239})'"
}
cd "$here/bytes" || exit 1
python3 "$tests/examples/reported.py" bytes.json > "$scratch/bytes"
if [ -n "$program" ]; then
    expect "bytes.json, its run" "$(cat "$scratch/bytes"; bytes_run)" "$("$program" run bytes.json 100 bytes.script)"
fi
bytes_run >> "$scratch/bytes"
found=$(python3 "$scripts/names.py" < "$scratch/bytes")
expect "names.py, values with an e" "$(bytes_named | sed 's/  *$//')" "$found"
due=$(bytes_named | sed -n 's/^\([0-9]*\) *e2 *eight *[a-z]* *\(.*[^ ]\)  *eight.*$/\1 \2/p')
found=$(python3 "$scripts/page.py" "$scratch/bytes" |
    sed -n 's/^<tr><td>\([0-9]*\)<.td><td>e2<.*<td>\([^<]*\)<.td><td>eight\.[a-z]*<.td><.tr>$/\1 \2/p')
expect "page.py, values with an e" "$due" "$found"
told=$(python3 "$scripts/step.py" bytes.json 100 bytes.script --told | sed -n 's/^ *> \(.*\)  (.*)$/\1/p')
expect "step.py, values with an e" "$(bytes_run | sed '$d')" "$told"
few=$(python3 "$scripts/names.py" --only load --only eight < "$scratch/bytes" | head -2)
expect "names.py, some of the lines" "step  thread  in     did   what                 by
58    e2      eight  load  pins input 000000e9  eight.pins" "$few"
cut=$(head -19 "$scratch/bytes" | head -c -3 | python3 "$scripts/names.py" 2>&1 | tail -1
    echo "status ${PIPESTATUS[2]}")
expect "names.py, a run that is cut" "line 19 was cut: 58 load t0 c0 e5 ea000004 4 000000
status 2" "$cut"
cd "$here" || exit 1
