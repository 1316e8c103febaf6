# Part of try.sh: authority.py.
for sample in sensor sealed; do
    found=$(python3 "$scripts/authority.py" < "$samples/$sample/report.json")
    same "authority.py, $sample" "$sample.authority" "$found"
done
altered "$samples/packets/report.json" 'r["edges"] = [[0, 1], [1, 2]]
for n in 15, 20: r["entries"][n]["passes"] = "capabilities"' > "$scratch/joined.json"
reasons=$(inside packets authority.py net < "$scratch/joined.json" | grep "reaches it")
same "authority.py, who reaches it" joined.authority "$reasons"
none=$(printf 'no compartment guard: there are net, tls, sensor\nstatus 2')
expect "authority.py, no compartment" "$none" "$(inside sensor authority.py guard < "$samples/sensor/report.json")"
