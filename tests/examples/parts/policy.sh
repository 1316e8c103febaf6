# Part of try.sh: policy.py.
for sample in sensor sealed shared; do
    same "policy.py, $sample" "$sample.policy" "$(python3 "$scripts/policy.py" < "$samples/$sample/report.json")"
done
for report in ${program:+"$samples"/*/report.json}; do
    sample=$(basename "$(dirname "$report")")
    python3 "$scripts/policy.py" < "$report" > "$scratch/policy"
    verdict=$(cd "$samples/$sample" && "$program" check "$sample.json" "$scratch/policy" 2>&1)
    expect "policy.py, $sample checked" allow "$verdict"
done
