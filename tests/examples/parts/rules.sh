# Part of try.sh: rules.py.
expect "rules.py, its policy" "$(cat "$samples/gateway/gateway.policy")" "$(inside gateway rules.py --policy gateway.rules)"
# judged RULE..: what rules.py says of the sample gateway, or of $scratch/altered.json, by these rules
judged() {
    printf '%s\n' "$@" > "$scratch/rules"
    inside gateway rules.py --capfw "$program" "${altered:-gateway.json}" "$scratch/rules" | sed "s#$scratch/##"
}

if [ -n "$program" ]; then
    expect "rules.py" "allow: 17 rules by capfw check, 3 by the report" \
        "$(inside gateway rules.py --capfw "$program" gateway.json gateway.rules)"
    expect "rules.py, groups" "rules:3: capfw denies \`device eth0 only vault\`: entry 4, radio: device eth0: read, write
rules:3: capfw denies \`device pins0 only vault\`: entry 35, app: device pins0: read, write
rules:4: capfw denies \`apart vault app\`: path vault app
status 12" "$(judged "group ports = eth0 pins0" "" "device ports only vault # two" "apart all")"
    expect "rules.py, nobody" "rules:1: the report denies \`disabled only nobody\`: entry 48, logger: export line, takes plain data, interrupts off
rules:3: the report denies \`call app.command only nobody\`: entry 13, parser: call app.command
status 12" "$(judged "disabled only nobody" "service yield only nobody" "call app.command only nobody")"
    expect "rules.py, rights" "rules:2: the report denies \`write device eth0 only nobody\`: entry 4, radio: device eth0: read, write
status 12" "$(judged "write device clock0 only nobody" "write device eth0 only nobody" "read device eth0 only radio")"
    expect "rules.py, no such thing" "rules:2: capfw refuses as P2: shared fram only radio parser vault app logger text
status 13" "$(judged "" "write shared fram only nobody")"
    expect "rules.py, no such owner" "status 13" "$(judged "read device eth0 only radios" | tail -1)"
    expect "rules.py, no rule" "line 1: no rule is about quota app
status 2" "$(judged "quota app only nobody")"
    sed 's/"stack": 32, "passes": "data"/"stack": 32/' "$samples/gateway/gateway.json" > "$scratch/altered.json"
    expect "rules.py, two who were joined" "rules:2: capfw denies \`apart parser vault\`: path parser app vault
status 12" "$(altered=$scratch/altered.json judged "group outside = radio parser" "apart outside vault")"
fi
