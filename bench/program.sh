#!/bin/bash
# How long the program's commands take: audits of 1, 4 and 16 MiB of JSON that is accepted (the small sample after
# blanks) and that is refused (many devices and many exports of distinct names, many words of code, many small values of
# each kind, many members that no description has, open brackets alone), and of the largest lawful description, each
# beside Python's json.load of the same text; each other command on the largest, and on its image; checks of the largest
# by policies of 16 MiB, whose lines are one rule that holds; and a run by scripts of 4 and 16 MiB.
source "$(dirname "$0")/common.sh"
tiny=$here/samples/tiny/tiny.json
descriptions "$tiny" blanks devices exports words objects empties lists numbers escapes members halves brackets

# told WORD..: a line with the status of a command, how much it wrote, how long it took and what memory
told() {
    used "$program" "$@"
    printf '%-9s %-11s %9d bytes, status %d, %8d bytes written, %s s, %s MiB' "$1" "$(basename "$2")" \
        "$(stat -c %s "$2")" "$status" "$(stat -c %s "$output")" "$seconds" "$held"
}
for file in $(ls -v "$work"); do
    told audit "$work/$file"
    printf ', json.load %s s\n' "$(loads "$work/$file")"
done
told image "$work/largest" && echo
cp "$output" "$folder/image"
told upgrade "$folder/image" && echo
told runimage "$folder/image" 1 && echo
told run "$work/largest" 1 && echo
told why "$work/largest" l31 c0 && echo
while read -r rule; do
    yes "$rule" | awk -v size=$((16 << 20)) '{ size -= length + 1; if (size < 0) exit; print }' > "$folder/policy"
    told check "$work/largest" "$folder/policy"
    printf ', a policy of %d lines: %s\n' "$(wc -l < "$folder/policy")" "$rule"
done << 'RULES'
disabled only c0
service allocate only c0
quota c63 1024
quota total 65536
RULES
for mib in 4 16; do
    yes | awk -v size=$((mib << 20)) '{ line = 1000000000 + NR " uart0 65"; size -= length(line) + 1
        if (size < 0) exit; print line }' > "$folder/script-$mib"
    told run "$tiny" 1 "$folder/script-$mib"
    printf ', a script of %d bytes, %s lines\n' "$(stat -c %s "$folder/script-$mib")" "$(wc -l < "$folder/script-$mib")"
done
