# Part of try.sh: lint.py.
linted=$(cd "$here/linted" && python3 "$scripts/lint.py" linted.json; echo "status $?")
expect "lint.py" "$(cat "$here/linted/linted.txt")" "$linted"
for sample in board forge gateway handler off packets sensor serve shared timer tiny two walls; do
    expect "lint.py, $sample" "" "$(inside "$sample" lint.py "$sample.json")"
done
mkfifo "$scratch/pipe.s"
sed "s#linted.s#$scratch/pipe.s#" "$here/linted/linted.json" > "$scratch/pipe.json"
pipe=$(cd "$here/linted" && timeout 20 python3 "$scripts/lint.py" "$scratch/pipe.json" | grep -A2 "plain file" | tail -2)
expect "lint.py, a pipe" "          \"code\": {\"file\": \"$scratch/pipe.s\"}," "$(head -1 <<< "$pipe")"
