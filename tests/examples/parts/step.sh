# Part of try.sh: step.py, held to the stored runs and to the rows of the tables.
for table in samples rows sources calls threads heap freed scripts reports; do
    mkdir "$scratch/$table"
    mapfile -t files < <(python3 "$tests/$table.py" "$scratch/$table")
    held=$(python3 "$here/held.py" "$scratch/$table" "${files[@]}")
    expect "step.py and reports.py, by $table.py" "all rows held" "${held%:*}"
done
packets=(packets.json 200 packets.script)
same "step.py" packets.trace "$(inside packets step.py "${packets[@]}")"
same "step.py, a trap" forge.trace "$(inside forge step.py forge.json 100)"
cp -r "$samples/forge" "$scratch/below"
for access in csw clw; do
    echo "main: $access a0, -16(cgp)" > "$scratch/below/forge.s"
    below=$(cd "$scratch/below" && python3 "$scripts/step.py" forge.json 1 | grep "the access is")
    expect "step.py, below the globals by $access" "         the access is of 4 bytes at 80000030" "$below"
done
same "step.py, what run tells" sensor.told "$(inside sensor step.py sensor.json 200 sensor.script --told)"
same "step.py, a break" packets.break "$(inside packets step.py "${packets[@]}" --break logger.put)"
prompt=$(inside packets step.py "${packets[@]}" --prompt < "$here/expected/prompt")
same "step.py, a prompt" packets.prompt "$prompt"
same "step.py, a profile" packets.profile "$(inside packets step.py "${packets[@]}" --profile)"
same "step.py, symbols" packets.symbols "$(inside packets step.py packets.json --symbols)"
same "step.py, a listing" forge.listing "$(inside forge step.py forge.json --listing)"
none=$(printf 'nosuch.json: No such file or directory\nstatus 2')
expect "step.py, no file" "$none" "$(inside forge step.py nosuch.json 1)"
none=$(printf 'no such place, `--symbols` lists the labels: nosuch\nstatus 2')
expect "step.py, no place" "$none" "$(inside forge step.py forge.json 1 --break nosuch)"
none=$(printf 'forge.s: not linked; `capfw audit forge.s` says what is wrong with it\nstatus 2')
expect "step.py, no description" "$none" "$(inside forge step.py forge.s 1)"
