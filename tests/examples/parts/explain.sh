# Part of try.sh: explain.py, schema.py, disassemble.py.
# refusal LINE WORD..: the line with which the program refuses these words; without one this line itself
refusal() {
    if [ -n "$program" ]; then "$program" "${@:2}"; else echo "$1"; fi
}

# linked DESC: the image of a description, by the program or, without one, by tests/model
linked() {
    if [ -n "$program" ]; then "$program" image "$1"; else python3 "$here/disassemble_rows.py" "$1"; fi
}

cd "$here/planted" || exit 1
expect "planted.py" "$(cat explained.txt)" "$(python3 "$here/planted.py" ${program:+"$program"} 2>&1)"
wrong=$(refusal "refused 4 description F3 compartment 0 0" audit wrong.json |
    python3 "$scripts/explain.py" audit wrong.json)
expect explain.py "$(cat wrong.explained)" "$wrong"
expect schema.py "$(cat wrong.schema)" "$(python3 "$scripts/schema.py" gate.json wrong.json)"
linked gate.json > "$scratch/image"
expect disassemble.py "$(cat gate.disassembled)" "$(python3 "$scripts/disassemble.py" "$scratch/image")"
cd "$here" || exit 1
holds explain_rows.py python3 explain_rows.py
holds schema_rows.py python3 schema_rows.py ${program:+"$program"}
holds disassemble_rows.py python3 disassemble_rows.py

# A member that stands twice: a warning, beside an output that goes on as it is.
mkdir "$scratch/twice" && cp "$here"/planted/*.s "$scratch/twice" && cd "$scratch/twice" || exit 1
sed 's/"limit": 256/"limit": 32, "limit": 256/' "$here/planted/gate.json" > gate.json
warning='gate.json:25:48: .compartments[0].quotas[0].limit: warning: "limit" stands twice, and the last one holds
          "quotas": [{"name": "heap", "limit": 32, "limit": 256}],
                                                   ^^^^^^^
    before it at gate.json:25:35, which counts for nothing'
expect "schema.py, a member that stands twice" "$warning
status 0" "$(python3 "$scripts/schema.py" gate.json; echo "status $?")"
python3 "$tests/examples/reported.py" gate.json > report
told=$(python3 "$scripts/explain.py" audit gate.json < report 2>&1 > again; echo "status $?")
expect "explain.py, a member that stands twice" "$warning
status 0" "$told"
cmp report again || status=1
cp "$here/planted/gate.json" .
steps=$(echo "path logger net" | python3 "$scripts/explain.py" why gate.json logger net 2> /dev/null; echo "status $?")
expect "explain.py, a path that isn't there" "path logger net
status 1" "$steps"
sed -i 's/, "passes": "data"//' gate.json
steps=$(echo "path crit net logger" | python3 "$scripts/explain.py" why gate.json crit logger 2> /dev/null | grep '^gate')
expect "explain.py, why" "gate.json:23:9: .compartments[0].imports[5]: entry 9: net imports crit.swap, which runs with its \
authority
gate.json:20:9: .compartments[0].imports[2]: entry 6: net calls logger.put, which passes capabilities" "$steps"
cd "$here" || exit 1
holds strays.py python3 "$here/strays.py"
