# Part of try.sh: picture.py.
for picture in "$scripts/sensor.svg" "$here/expected/sealed.svg"; do
    sample=$(basename "$picture" .svg)
    expect "picture.py, $sample" "$(cat "$picture")" "$(python3 "$scripts/picture.py" < "$samples/$sample/report.json")"
done
