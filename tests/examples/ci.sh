#!/bin/bash
# Tries the gates of examples/ci as a team copies them: the folder beside a description, elsewhere, with capfw on the
# path and nothing set; on the sample packets, and on changes of it that each gate must refuse and explain.
#
#     tests/examples/ci.sh PROGRAM    a built program of this clone; without make it does nothing, and says so
#
# Status 0: each gate answers as it must.
top=$(cd "$(dirname "$0")/../.." && pwd) || exit 1
sample=$top/samples/packets
program=$(realpath "$1") || exit 1
folder=$(mktemp -d) || exit 1
trap 'rm -rf "$folder"' EXIT
status=0

if ! command -v make > /dev/null; then
    echo "ci: there is no make to try the gates with"
    exit 0
fi
mkdir "$folder/bin" "$folder/work" && ln -s "$program" "$folder/bin/capfw" || exit 1
cp -r "$top"/examples/ci/{Makefile,policies} "$sample"/{packets.json,*.s,*.script} "$folder/work" || exit 1
cd "$folder/work" || exit 1
export PATH=$folder/bin:$PATH
unset GITHUB_ACTIONS GITHUB_WORKSPACE

# gate TARGET STATUS WANTED NAME [WORD..]: a target ends with 0, or with another status, and writes these lines among
# others
gate() {
    local found is_right=yes line
    found=$(make --no-print-directory "$1" "${@:5}" 2>&1)
    [ $? -eq "$2" ] || is_right=
    while IFS= read -r line; do
        [ -z "$line" ] || grep -qxF -- "$line" <<< "$found" || is_right=
    done <<< "$3"
    if [ "$is_right" ]; then
        echo "ci: $4: as expected"
    else
        printf 'ci: %s: differs\n%s\n' "$4" "$found"
        status=1
    fi
}

# changed NAME PATTERN: a file of the sample with a change
changed() {
    sed "$2" "$sample/$1" > "$1"
    ! cmp -s "$sample/$1" "$1" || { echo "ci: $1 isn't changed by $2"; status=1; }
}

gate changes 2 "accepted.json: No such file or directory" "nothing accepted yet"
gate accept 0 "" "the first build accepted"
gate all 0 allow "the sample"
cmp -s <("$program" image packets.json) build/packets.image || { echo "ci: another image"; status=1; }
gate page 0 "" "a page"
[ -s build/page.html ] || { echo "ci: no page"; status=1; }

changed parser.s 's/^parse:/parser:/'
gate audit 2 'refused 6 link L1 parser 0
packets.json:30:43: .compartments[1].exports[0].at: L1: export parse of parser: the source has no label "parse"
    did you mean "parser"?' "a label that is gone"
[ ! -e build/report.json ] || { echo "ci: a report of what was refused"; status=1; }

# Code alone: no report tells it, and nobody may do more.
changed parser.s 's/li a1, 2$/li a1, 4/'
text=$(sed -n 's/^text parser [0-9]* \(.\{12\}\).*/\1/p' accepted.digests)
gate changes 0 "" "code that is another one"
gate changes 0 "code: parser text $text -> $(sed -n 's/^text parser [0-9]* \(.\{12\}\).*/\1/p' build/digests)" \
    "code that is another one, by its digest"
gate check 0 allow "code that is another one keeps the policies"
cp "$sample/parser.s" .

changed packets.json 's/"stack": 64, "passes": "data"/"stack": 64/'
gate check 2 'denied 3 16
denied 5 path net parser
policies/30-apart.policy:3:1: 12: broken by entry 16, the export parse of parser
policies/30-apart.policy:5:1: 12: net reaches parser
packets.json:15:9: .compartments[0].imports[1]: entry 5: net calls parser.parse, which passes capabilities' \
    "a call that takes capabilities"
export GITHUB_ACTIONS=true
gate check 2 '::error file=policies/30-apart.policy,line=5,col=1,title=12::net reaches parser' "an annotation"
export GITHUB_WORKSPACE=$folder
gate check 2 '::error file=work/policies/30-apart.policy,line=5,col=1,title=12::net reaches parser' \
    "an annotation in a folder of what was checked out" SARIF=yes
unset GITHUB_ACTIONS GITHUB_WORKSPACE
gate check 2 "" "what was found in a file" SARIF=yes
found=$(python3 -c 'import json
for it in json.load(open("build/check.sarif"))["runs"][0]["results"]:
    place = it["locations"][0]["physicalLocation"]
    print(it["ruleId"], place["artifactLocation"]["uri"], place["region"]["startLine"])')
if [ "$found" = "12 policies/30-apart.policy 3
authority packets.json 30
12 policies/30-apart.policy 5
authority packets.json 15" ]; then
    echo "ci: its places: as expected"
else
    printf 'ci: its places: differ\n%s\n' "$found"
    status=1
fi

changed packets.json 's/{"as": "sleep", "service": "sleep"}/&, {"as": "rest", "service": "yield"}/'
gate check 0 allow "a service that no rule names"
gate changes 2 "grew: net may use service yield
    packets.json:16:46: .compartments[0].imports[3]: entry 7" "a service that nobody had"
gate accept 0 "" "the new report accepted"
gate all 0 allow "the same after that" SARIF=yes
[ "$(grep -c ruleId build/check.sarif)" = 0 ] || { echo "ci: something found where nothing was refused"; status=1; }
cp packets.json other.json
gate all 2 "make FIRMWARE=NAME: 2 descriptions are here" "two descriptions"
gate all 0 allow "the one that is named" FIRMWARE=packets
exit $status
