# Part of try.sh: names.py.
for sample in packets forge sensor; do
    found=$(cat "$samples/$sample/report.json" "$samples/$sample/run.txt" | python3 "$scripts/names.py")
    same "names.py, $sample" "$sample.names" "$found"
done
traps=("28 1 5" "28 2 1" "28 3 6" "28 17 7" "28 18 10" "28 19 2" "28 21 15" "28 24 16")
traps+=("0 0 0" "2 0 0" "3 0 0" "4 0 0" "6 0 0" "11 0 0")
found=$(printf '1 trap t0 c0 %s\n' "${traps[@]}" | cat "$samples/forge/report.json" - | python3 "$scripts/names.py")
same "names.py, each trap" traps.names "$(tail -n +2 <<< "$found")"
leak=$(cat "$samples/packets/report.json" && head -4 "$samples/packets/run.txt")
last='still allocated: n1, 8 bytes at 800005a8, on parser.buffer, since step 23'
expect "names.py, still allocated" "$last" "$(python3 "$scripts/names.py" <<< "$leak" | tail -1)"
none=$(printf 'no report: refused 1 usage\nstatus 2')
expect "names.py, no report" "$none" "$(inside two names.py <<< "refused 1 usage")"
