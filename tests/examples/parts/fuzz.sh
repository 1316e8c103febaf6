# Part of try.sh: fuzz.py. The first run is the script as it is; the two traps of the sample were placed there.
found=$(inside gateway fuzz.py --plain --runs 0 gateway.json 2000 gateway.script)
expect "fuzz.py, the script itself" "1. trap in parser: capability: bounds, register ca2 at gateway_parser.s:23 parse+88: handled
2. trap in app: capability: seal, register ca3 at gateway_app.s:47 steals: the frame is unwound, there is no handler
2 found in 0 runs of seed 0
status 1" "$(grep -v '^    ' <<< "$found" | sed 's/, step [0-9]*//')"
# Each script that it writes shows its finding.
shown=$(grep '^    ' <<< "$found" | sed 's/^    //')
first=$(awk -v n=0 '$1 < last {n++} {last = $1} n == 0' <<< "$shown")
echo "$first" > "$scratch/first.script"
expect "fuzz.py, its script" "1" "$(inside gateway step.py gateway.json 2000 "$scratch/first.script" --refused | grep -c 'trap at gateway_parser.s:23 parse+88')"
# The search comes to a trap that the script as it is doesn't come to: a first byte from 128 on, and a second one that is
# no place in a table of 16 bytes.
searched() {
    (cd "$here/searched" && python3 "$scripts/fuzz.py" --plain "$@" searched.json 20 searched.script; echo "status $?")
}
expect "fuzz.py, a script without a trap" "0 found in 0 runs of seed 0
status 0" "$(searched --runs 0)"
found=$(searched --runs 40)
expect "fuzz.py, its search" "1. trap in table: capability: bounds, register ct1 at searched.s:10 main+32: the frame is unwound, there is no handler
1 found in 40 runs of seed 0
status 1" "$(grep -v '^    ' <<< "$found" | sed 's/, step [0-9]*//')"
expect "fuzz.py, the script that it found" "both bytes" "$(sed -n 's/^    //p' <<< "$found" |
    awk 'NR == 1 {first = $3} NR == 2 && first >= 128 && $3 >= 16 {print "both bytes"}')"
