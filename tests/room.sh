#!/bin/bash
# The host's memory that a run takes: with RAM of 8 MiB it goes through in an address space of 64 MiB, with RAM of
# 64 MiB in one of 512. In one no larger than the RAM itself it can't, which shows that the limit is one. And that a
# description of 16 MiB takes: whatever its small values are, it is judged in an address space of 300 MiB, and in one of
# 32 it can't be.
#
#     room.sh [PROGRAM]     the program is crates/ct_main/out/ct_main where none is named; bin/build makes it
#
# Status 0: each run answers as it should.
here=$(cd "$(dirname "$0")" && pwd) || exit 1
program=$(realpath "${1:-$here/../crates/ct_main/out/ct_main}") || exit 1
work=$(mktemp -d) || exit 1
trap 'rm -rf "$work"' EXIT
failed=0

if [ ! -x "$program" ]; then
    echo "room: there is no program at $program; bin/build makes it" >&2
    exit 1
fi

# a description of version 2 with RAM of so many MiB
firmware() {
    python3 - "$here/../samples/tiny/tiny.json" "$1" > "$work/firmware.json" <<'P'
import json
import sys

firmware = json.load(open(sys.argv[1], encoding="utf-8"))
firmware["version"] = 2
firmware["ram"]["size"] = int(sys.argv[2]) << 20
json.dump(firmware, sys.stdout)
P
}

# a description of 16 MiB, most of which is one value again and again among its devices; or a text that doesn't end
description() {
    python3 - "$here/../samples/tiny/tiny.json" "$1" > "$work/description.json" <<'P'
import sys

SIZE, ENDLESS = 16 << 20, "[" * 100
with open(sys.argv[1], encoding="utf-8") as file:
    tiny = file.read().strip()
if sys.argv[2] == "endless":
    print(end=ENDLESS + "1," * ((SIZE - len(ENDLESS)) // 2))
else:
    value = sys.argv[2] + ","
    print(end=tiny.replace('"devices":[', '"devices":[' + value * ((SIZE - len(tiny)) // len(value))))
P
}

# what a command answers in an address space of so many MiB
answer() {
    (cd "$work" && ulimit -v $(($1 << 10)) && "$program" "${@:2}" > out 2>&1)
    echo $?
}

for row in "8 64" "64 512"; do
    read -r ram space <<< "$row"
    firmware "$ram" || exit 1
    within=$(answer "$space" run firmware.json 1000)
    beyond=$(answer "$ram" run firmware.json 1000)
    if [ "$within" != 0 ] || [ "$beyond" = 0 ]; then
        echo "room: RAM of $ram MiB answers $within within $space MiB and $beyond within $ram" >&2
        failed=1
    fi
done
for value in '{"a":0}' '{}' '[]' '[0]' 0 '"\n"' '""' endless; do
    description "$value" || exit 1
    within=$(answer 300 audit description.json)
    read -r said < "$work/out"
    beyond=$(answer 32 audit description.json)
    due="refused 4 description F2 device 0 0"
    [ "$value" = endless ] && due="refused 4 description F1 firmware 0 0"
    if [ "$within" != 4 ] || [ "$said" != "$due" ] || [ "$beyond" != 10 ]; then
        echo "room: 16 MiB of $value answer $within, '$said', within 300 MiB and $beyond within 32" >&2
        failed=1
    fi
done
exit $failed
