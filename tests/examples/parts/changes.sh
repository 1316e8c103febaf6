# Part of try.sh: changes.py.
# changes STATEMENT: what changed from the report of the sample packets to itself after a statement
changes() {
    altered "$samples/packets/report.json" "$1" > "$scratch/new.json"
    inside packets changes.py report.json "$scratch/new.json"
}

expect "changes.py, nothing" "" "$(changes "")"
expect "changes.py, less" "~ net device eth eth0 may: read, write -> write" \
    "$(changes 'r["entries"][3]["rights"] = "GL SD"')"
more=$(printf '~ parser quota buffer limit: 64 -> 128\ngrew: parser may allocate, 128 bytes and not 64\nstatus 1')
expect "changes.py, a limit" "$more" "$(changes 'r["entries"][14]["limit"] = 128')"
more=$(printf 'grew: net may allocate, 164 bytes\ngrew: parser may allocate, 164 bytes and not 64')
both=$(changes 'r["edges"] = [[0, 1]]
r["entries"].append(dict(r["entries"][14], number=25, owner="net", name="more", limit=100))')
expect "changes.py, limits of two who share" "$more" "$(grep 'may allocate' <<< "$both")"
moved=$(printf -- '- net device eth eth0\n+ net device wire eth0 may=read, write')
expect "changes.py, another name of a slot" "$moved" "$(changes 'r["entries"][3]["name"] = "wire"')"
off=$(printf '~ digits export digit posture: inherit -> disabled\n%s\nstatus 1' \
    "grew: parser may turn interrupts off by digits.digit, which digits holds")
expect "changes.py, interrupts off" "$off" "$(changes 'r["entries"][22]["posture"] = "disabled"')"
member="~ digits export digit passes: none -> data, args: none -> 6, stack: none -> 0"
library=$(changes 'r["compartments"] += r["libraries"]; r["libraries"] = []
r["entries"][22].update(args=6, passes="data", stack=0)')
expect "changes.py, a library that became a compartment" "$member" "$(grep '^~ digits export' <<< "$library")"
same "changes.py, sharing" packets.changes \
    "$(changes 'r["entries"][15]["passes"] = "capabilities"; r["edges"] = [[0, 1]]')"
other=$(inside packets changes.py report.json ../sensor/report.json)
same "changes.py, another firmware" firmware.changes "$other"
none=$(printf 'nosuch.json: No such file or directory\nstatus 2')
expect "changes.py, no file" "$none" "$(inside packets changes.py report.json nosuch.json)"
# Digests of two builds: another text, an owner that came, and sealed bytes of another length.
one=1111111111111111111111111111111111111111111111111111111111111111
two=2222222222222222222222222222222222222222222222222222222222222222
printf '%s\n' "text net 80 $one" "entries net 1 $one" "data net 0 $one" "sealed card 3 $one" > "$scratch/old.digests"
printf '%s\n' "text net 84 $two" "entries net 1 $one" "data net 0 $one" "sealed card 3 $two" "text new 4 $one" \
    > "$scratch/new.digests"
code=$(inside packets changes.py report.json report.json --code "$scratch/old.digests" "$scratch/new.digests")
expect "changes.py, code" "code: net text 111111111111 -> 222222222222, 80 -> 84 bytes
code: card sealed 111111111111 -> 222222222222" "$code"
none=$(printf 'packets.s: not what digests.py writes: x\nstatus 2')
echo x > "$scratch/packets.s"
expect "changes.py, no digests" "$none" "$(inside packets changes.py report.json report.json \
    --code "$scratch/old.digests" "$scratch/packets.s" | sed "s|$scratch/||")"
placed=$(altered "$samples/packets/report.json" 'r["entries"][3]["rights"] = "GL SD"' > "$scratch/less.json"
    inside packets changes.py "$scratch/less.json" report.json --description packets.json)
expect "changes.py, the place of what grew" "~ net device eth eth0 may: write -> read, write
grew: net may read uart eth0 at 10000000
    packets.json:14:9: .compartments[0].imports[0]: entry 4
status 1" "$placed"
