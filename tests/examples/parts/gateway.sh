# Part of try.sh: the page for a review of the sample gateway.
cat "$samples/gateway/report.json" "$samples/gateway/run.txt" > "$scratch/run"
echo allow > "$scratch/verdict"
inside gateway page.py "$scratch/run" gateway.policy "$scratch/verdict" > "$scratch/gateway.html"
expect "page.py, gateway" "$(cat "$scripts/gateway.html")" "$(cat "$scratch/gateway.html")"
expect "page.py, gateway stands alone" "stands alone" "$(python3 "$here/alone.py" < "$scratch/gateway.html")"
