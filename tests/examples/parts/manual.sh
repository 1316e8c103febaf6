# Part of try.sh: manual.py.
found=$(inside packets manual.py --bash > "$scratch/capfw.bash"; cd "$samples/gateway" && bash -c '. "$1"
tried() { COMP_WORDS=(capfw "$@") COMP_CWORD=$#; _capfw; echo "${COMPREPLY[*]}"; }
tried run; tried check gateway; tried check gateway.json gate; tried run gateway.json 100 g' bash "$scratch/capfw.bash" | sed 's/  */ /g')
expect "manual.py, completion" "run runimage
gateway.json
gateway.policy
gateway.script" "$found"
page=$(inside packets manual.py)
expect "manual.py, commands" "10" "$(sed -n '/^.SH COMMANDS/,/^.SH FILES/p' <<< "$page" | grep -c '^\.B')"
expect "manual.py, statuses" "1 2 3 4 5 6 7 8 9 10 11 12 13" "$(sed -n '/^.SH EXIT/,$s/^\.B //p' <<< "$page" | paste -sd' ')"
if command -v man > /dev/null; then
    expect "manual.py, drawn by man" "0" "$(man --warnings -l - <<< "$page" 2>&1 > /dev/null | wc -l)"
fi
