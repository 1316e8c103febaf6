#!/bin/bash
# Runs the tables of worked rows through the program, and compares what it writes and each status with what is due
# (answers.py): samples.py (every sample), rows.py (commands), descriptions.py and sources.py (their faults; integer
# instructions), texts.py (what texts are read as), links.py (what is linked), images.py (images altered), reports.py
# (reports, and paths), policies.py, calls.py (calls between compartments), handlers.py (error handlers), threads.py
# (turns and services), heap.py (the heap), freed.py (what was freed, and sweeps), tokens.py (keys and tokens, also with
# error handlers), scripts.py (bytes that come to devices), faults.py (files and output that fail), limits.py (both
# sides of each limit), words.py (words of the command line), statuses.py (each command by each of its statuses).
#
#     tests/try.sh PROGRAM    a built program, proved and optimised (crates/ct_main/out/ct_main): some seconds
#     tests/try.sh            the kit tries the program unproved, with checks: some minutes, without images.py,
#                             limits.py and statuses.py (large files) and words.py (words that it can't hand on); it
#                             hands the program an output that takes all, so the rows of output that fails are left out
here=$(cd "$(dirname "$0")" && pwd) || exit 1
program=${1:+$(realpath "$1")}
cases=$(mktemp -d) || exit 1
trap 'rm -rf "$cases" "$cases"-*' EXIT
files=()

tables=(samples rows descriptions texts sources links reports policies calls handlers threads heap freed tokens
    scripts faults)
[ -z "$program" ] || tables+=(images limits words statuses)
for table in "${tables[@]}"; do
    rows=$(python3 "$here/$table.py" "$cases") || exit 1
    while IFS= read -r row; do
        [ -z "$row" ] || files+=("$row")
    done <<< "$rows"
done
if [ -n "$program" ]; then
    python3 "$here/answers.py" "$cases" "$program" "${files[@]}"
    exit
fi
for room in "$cases"/*.room; do
    rm "${room%.room}" "${room%.room}".{args,stdout,room} || exit 1
done
data=()
for file in "${files[@]}"; do
    data+=(--data "$file")
done
cd "$here/../crates/ct_main" || exit 1
rt try "${data[@]}" --cases "$cases" 2> "$cases-said"
status=$?
cat "$cases-said" >&2
[ $status -eq 0 ] || exit $status
python3 "$here/answers.py" "$cases" < "$cases-said"
