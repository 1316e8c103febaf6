# Part of try.sh: page.py.
cat "$samples/packets/report.json" "$samples/packets/run.txt" > "$scratch/run"
page=$(inside packets page.py "$scratch/run" "$here/expected/broken.policy" "$here/expected/broken.verdict")
expect "page.py" "$(cat "$scripts/packets.html")" "$page"
if [ -n "$program" ]; then
    verdict=$(cd "$samples/packets" && "$program" check packets.json "$here/expected/broken.policy")
    same "page.py, its verdict" broken.verdict "$verdict"
fi
for sample in sensor sealed packets; do
    cat "$samples/$sample/report.json" "$samples/$sample/run.txt" > "$scratch/run"
    alone=$(inside "$sample" page.py "$scratch/run" | python3 "$here/alone.py")
    expect "page.py, $sample stands alone" "stands alone" "$alone"
done
