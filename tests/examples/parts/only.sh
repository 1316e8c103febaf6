# Part of try.sh: only.sh.
# only REPORT WORD..: what the check of a build script writes, and its status
only() {
    "$scripts/only.sh" "$@" 2>&1
    echo "status $?"
}

if command -v jq > /dev/null; then
    report=$samples/two/report.json
    expect "only.sh, allowed" "status 0" "$(only "$report" uart0 log)"
    other=$(printf 'entry 9: log may touch uart0\nstatus 1')
    expect "only.sh, another owner" "$other" "$(only "$report" uart0 lamp)"
    expect "only.sh, no words" "only.sh REPORT DEVICE OWNER..
status 2" "$(only)"
    expect "only.sh, no file" "nosuch: no file that can be read
status 2" "$(only nosuch uart0)"
    expect "only.sh --help" "8 status 0" "$(only --help | wc -l | tr -d ' ') $(only --help | tail -1)"
    none=$(printf 'no device uart9 in %s\nstatus 2' "$report")
    expect "only.sh, no such device" "$none" "$(only "$report" uart9 log)"
    shared=$(mktemp)
    jq '.edges = [[0, 1]]' "$report" > "$shared"
    edge=$(printf 'edge: lamp shares with log\nstatus 1')
    expect "only.sh, a shared one" "$edge" "$(only "$shared" uart0 log)"
    rm -f "$shared"
fi
