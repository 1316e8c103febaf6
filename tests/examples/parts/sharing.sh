# Part of try.sh: sharing.py and devices.py.
picture=$(python3 "$scripts/sharing.py" < "$samples/board/report.json")
expect "sharing.py, calls" "$(cat "$here/expected/board.dot")" "$picture"
picture=$(python3 "$scripts/sharing.py" < "$samples/two/report.json")
expect sharing.py "$(cat "$here/expected/two.dot")" "$picture"
table=$(python3 "$scripts/devices.py" < "$samples/two/report.json")
expect devices.py "$(cat "$here/expected/two.devices")" "$table"
if command -v dot > /dev/null; then
    nodes=$(dot -Tsvg <<< "$picture" | grep -c '<g id="node')
    expect "sharing.py, drawn by dot" 5 "$nodes"
fi
expect "sharing.py --mermaid" "$(cat "$here/expected/sensor.mermaid")" \
    "$(python3 "$scripts/sharing.py" --mermaid < "$samples/sensor/report.json")"
expect "picture.py --mermaid" "$(cat "$here/expected/two.mermaid")" \
    "$(python3 "$scripts/picture.py" --mermaid < "$samples/two/report.json")"
