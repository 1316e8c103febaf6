# Part of try.sh: reach.py, and reach.rego where opa is there.
if command -v jq > /dev/null; then
    closed=$(inside gateway reach.py < "$samples/gateway/report.json" | jq -cS '[.reach, .callers, (.may | map_values(length))]')
    expect "reach.py" '[{"app":["vault","app"],"logger":["logger"],"parser":["parser"],"radio":["radio"],"text":["parser","logger"],"vault":["vault","app"]},{"app.beat":[],"app.command":["parser"],"logger.line":["app"],"parser.handler":[],"parser.parse":["radio"],"radio.main":[],"vault.close":["app"],"vault.mix":["app"],"vault.session":["app"]},{"app":23,"logger":12,"parser":11,"radio":8,"vault":23}]' "$closed"
    same_report=$(inside gateway reach.py < "$samples/gateway/report.json" | jq -cS 'del(.reach, .may, .callers)')
    expect "reach.py, the report" "$(jq -cS . "$samples/gateway/report.json")" "$same_report"
fi
if command -v opa > /dev/null; then
    altered "$samples/gateway/report.json" 'r["edges"].append([1, 3])
for e in r["entries"]:
    if e.get("name") == "command" and e["kind"] == "export": e["passes"] = "capabilities"' > "$scratch/joined.json"
    python3 "$scripts/reach.py" < "$scratch/joined.json" > "$scratch/input.json"
    found=$(opa eval -f values --input "$scratch/input.json" --data "$scripts/reach.rego" 'data.firmware' | tr -d ' \n')
    expect "reach.rego" '[{"handed":["app.command"],"joined":[["parser","vault"]],"outside":["parser","radio"],"writers":[]}]' "$found"
fi
