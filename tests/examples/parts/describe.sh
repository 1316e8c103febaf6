# Part of try.sh: describe.py and digests.py.
holds describe_rows.py python3 "$here/describe_rows.py" "$program"
if [ -n "$program" ]; then
    for folder in "$samples"/*/; do
        sample=$(basename "$folder")
        (cd "$folder" && "$program" image "$sample.json") > "$scratch/$sample.image"
        told=$(python3 "$scripts/describe.py" "$scratch/$sample.image" "$scratch/$sample" --capfw "$program" | tail -1)
        expect "describe.py, $sample" "its image is $scratch/$sample.image, byte for byte: what \`audit\`, \`why\` and \
\`check\` say of it holds of the image" "$told"
        (cd "$scratch/$sample" && "$program" image "$sample.json") | cmp - "$scratch/$sample.image" || status=1
    done
    told=$(python3 "$scripts/describe.py" "$scratch/two.image" "$scratch/two" --capfw "$program" 2>&1; echo "status $?")
    expect "describe.py, a folder that isn't empty" "$scratch/two: it isn't empty
status 2" "$told"
    # RAM is larger than the heap's base says: lawful, and laid out by nobody's linker.
    python3 - "$scratch/two.image" > "$scratch/other.image" << 'PYTHON'
import sys
data = bytearray(open(sys.argv[1], "rb").read())
data[48:52] = (int.from_bytes(data[48:52], "little") + 16).to_bytes(4, "little")
sys.stdout.buffer.write(data)
PYTHON
    told=$(python3 "$scripts/describe.py" "$scratch/other.image" "$scratch/other" --capfw "$program"; echo "status $?")
    expect "describe.py, an image of another linker" "$scratch/other/two.json describes it, with lamp.s, log.s
its image isn't $scratch/other.image: byte 48, base of the heap; what is said of it doesn't hold of the image
status 1" "$told"
    head -c 100 "$scratch/two.image" > "$scratch/cut.image"
    told=$(python3 "$scripts/describe.py" "$scratch/cut.image" "$scratch/cut" --capfw "$program" 2>&1; echo "status $?")
    expect "describe.py, no image" "$scratch/cut.image: refused 7 image I2 100
status 2" "$told"
fi
# The text and the entry of samples/tiny stand in docs/use/image.md's terms in tests/model: five words, one entry at 0.
python3 -c 'import sys; sys.path.insert(0, sys.argv[1]); from model import images
sys.stdout.buffer.write(images.tiny())' "$tests" > "$scratch/tiny.image"
text=$(printf '\x97\x02\x00\x00\x83\xb2\x82\xff\x13\x05\x10\x04\x23\xa0\xa2\x00\x67\x80\x00\x00' | sha256sum)
due="text app 20 ${text%% *}
entries app 1 $(printf '\0\0\0\0' | sha256sum | cut -d ' ' -f 1)
data app 0 $(printf '' | sha256sum | cut -d ' ' -f 1)"
expect "digests.py" "$due" "$(python3 "$scripts/digests.py" "$scratch/tiny.image")"
