#!/bin/bash
# Tries the scripts of examples/ on the samples, on the rows of the tables and on random runs, each where its tool
# (python3, jq, dot, make) is there, and compares what they write with what is committed here. Status 0: nothing
# differs.
#
#     tests/examples/try.sh PROGRAM [PART..]    a built program; of the parts in parts/ those that are named, or all
#     tests/examples/try.sh ""      [PART..]    without a program: what needs one is left out
here=$(cd "$(dirname "$0")" && pwd) || exit 1
tests=$here/..
scripts=$here/../../examples
samples=$here/../../samples
program=${1:+$(realpath "$1")}
scratch=$(mktemp -d) || exit 1
trap 'rm -rf "$scratch"' EXIT
export PYTHONDONTWRITEBYTECODE=1
status=0

# expect NAME WANTED FOUND
expect() {
    if [ "$2" = "$3" ]; then
        echo "examples: $1: as expected"
    else
        printf 'examples: %s: differs; < is due, > was written\n' "$1"
        diff <(echo "$2") <(echo "$3") | head -n 20
        status=1
    fi
}

# same NAME FILE FOUND: what was found is what stands in expected/FILE
same() {
    expect "$1" "$(cat "$here/expected/$2")" "$3"
}

# inside SAMPLE SCRIPT WORD..: what a script writes in a sample's folder, errors too, and its status where that isn't 0
inside() {
    (cd "$samples/$1" && python3 "$scripts/$2" "${@:3}" 2>&1) || echo "status $?"
}

# altered REPORT STATEMENT: a report `r` after a statement of Python
altered() {
    python3 -c 'import json, sys; r = json.load(open(sys.argv[1])); exec(sys.argv[2]); print(json.dumps(r))' "$1" "$2"
}

# holds NAME WORD..: a check that ends with status 0 where nothing differs, and its last line
holds() {
    local told
    if told=$("${@:2}" 2>&1); then
        echo "examples: $1: ${told##*$'\n'}"
    else
        printf 'examples: %s: differs\n%s\n' "$1" "$told"
        status=1
    fi
}

if ! command -v python3 > /dev/null; then
    echo "examples: there is no python3 to try the scripts with"
    exit 0
fi
parts=("${@:2}")
if [ ${#parts[@]} -eq 0 ]; then
    for part in "$here"/parts/*.sh; do
        part=${part##*/}
        parts+=("${part%.sh}")
    done
fi
for part in "${parts[@]}"; do
    # shellcheck source=/dev/null
    . "$here/parts/$part.sh"
done
exit $status
