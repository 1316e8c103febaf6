#!/bin/bash
# Tries the commands of bin/ with a kit and a program that only say what they are asked for: that bin/capfw hands on
# words, files and statuses, with a built program and by a try, answers its own three forms, and counts on a terminal;
# and that bin/build counts crates, shows life, and says what failed. Nothing is proved or built. Status 0: nothing
# differs.
here=$(cd "$(dirname "$0")/.." && pwd) || exit 1
work=$(mktemp -d) || exit 1
trap 'rm -rf "$work"' EXIT
status=0

# expect NAME WANTED FOUND
expect() {
    if [ "$2" = "$3" ]; then
        echo "command: $1: as expected"
    else
        printf 'command: %s: differs\n%s\ndue is\n%s\n' "$1" "$3" "$2"
        status=1
    fi
}

# A clone of four crates, of which one is built and another is needed by nobody, and a sample.
clone=$work/a\ clone
mkdir -p "$clone" "$work/kit" && cp -r "$here/bin" "$here/VERSION" "$clone" || exit 1
printf '# crates\nlow:\nunused: low\nhigh: low\nct_main: high\n' > "$clone/crates.txt"
for crate in low unused high ct_main; do
    mkdir -p "$clone/crates/$crate/src" "$clone/crates/$crate/out/rlib"
    touch -d "1 hour ago" "$clone/crates/$crate/src/lib.rt"
done
touch -d "1 minute ago" "$clone/crates/low/out/rlib/stamp"
mkdir -p "$clone/sample" && printf '{"code": {"file": "a.s"}}\n' > "$clone/sample/a.json" && touch "$clone/sample/a.s"

# The program says its words, and ends with the number of them.
cat > "$work/program" << 'PROGRAM'
#!/bin/bash
[ "$1" != run ] || [ -z "$SLOW" ] || sleep 3.5
echo "program: $*"
exit $#
PROGRAM
# The kit's try says its words and ends as a program with status 7, or not at all; its run builds what is left, or
# fails.
cat > "$work/kit/rt" << 'KIT'
#!/bin/bash
case $1 in
    version) echo "a kit" ;;
    try)
        [ -z "$SLOW" ] || sleep 30
        echo "try: ${*//$CLONE/CLONE}"
        [ -n "$FAILS" ] && echo "run=none" >&2 && exit 2
        echo "run=ended status=7" >&2
        exit 7
        ;;
    run)
        echo "$*" > out/words
        sleep 1
        touch ../high/out/rlib/stamp
        sleep 4
        [ -z "$FAILS" ] || { echo "error: high" >&2; exit 1; }
        [ -z "$SLOW" ] || sleep 30
        cp "$PROGRAM" out/ct_main
        printf 'fn ct_main::main: proved\nlogic=proved functions=4\n' >&2
        ;;
esac
KIT
chmod +x "$work/program" "$work/kit/rt"
export CLONE=$clone PROGRAM=$work/program FAILS= SLOW=
kit=$work/kit:$PATH
cd "$clone/sample" || exit 1

# said WORD..: what bin/capfw writes, errors too, and its status; the kit is there
said() {
    PATH=$kit "$clone/bin/capfw" "$@" 2>&1
    echo "status $?"
}

trying="capfw: trying the program unproved, which takes a minute or two; bin/build makes the proved one, once"
expect "a try" "$trying
try: try --seconds 60 --data a.json=CLONE/sample/a.json --data a.s=CLONE/sample/a.s -- audit a.json
status 7" "$(said audit a.json)"
expect "a try without an answer" "$trying
try: try --seconds 60 -- audit nosuch.json
run=none
capfw: the try gave no answer; bin/build makes the proved program, which has no such limits
status 125" "$(FAILS=yes said audit nosuch.json)"
expect "no kit" "capfw: there is no program at CLONE/bin/../crates/ct_main/out/ct_main, and no command rt to make it
status 125" "$(PATH=$work "$clone/bin/capfw" audit a.json 2>&1 | sed "s|$clone|CLONE|"; echo "status ${PIPESTATUS[0]}")"
expect "--version without a program" "capfw $(< "$here/VERSION")
no program is built: the kit tries it unproved; bin/build makes the proved one
a kit
status 0" "$(said --version)"

# on_terminal OPTION.. WORD..: what a command writes on a terminal, with the marks of tests/terminal.py
on_terminal() {
    PATH=$kit python3 "$here/tests/terminal.py" "$@" | sed "s|$clone|CLONE|"
}

# counts: seconds that were counted, as one N
counts() {
    sed 's/[0-9][0-9]* s\([,<]\)/N s\1/g; s/\(<capfw: N s<\)*/\1/g'
}

has_terminal=
python3 -c 'import pty' 2> /dev/null && has_terminal=yes
if [ $has_terminal ]; then
    found=$(SLOW=yes on_terminal --type ^C --keys 3 "$clone/bin/capfw" audit a.json)
    expect "a try that is interrupted" "$trying
the try was interrupted
status 130" "$(sed 's/^.*capfw: the try/the try/' <<< "$found")"
    expect "a try counts on a terminal" "<capfw: N s<" \
        "$(grep -o '<capfw: [0-9]* s<' <<< "$found" | counts | head -n 1)"
    found=$(SLOW=yes on_terminal --type ^C --keys 7 "$clone/bin/build")
    due="build: interrupted; what is proved stays, and the next bin/build goes on from there"
    expect "a build that is interrupted" "$due
status 130" "$(sed -n 's/^.*build: int/build: int/p; ${s/^[<_]*//; p}' <<< "$found")"
    expect "a build shows life on a terminal" "[1/3] 2 left; what is proved stays, also where this is ended" \
        "$(head -n 1 <<< "$found")"
    expect "a build counts on a terminal" "_[2/3] N s, 1 left<" \
        "$(grep -o '_\[2/3\] [0-9]* s, 1 left<' <<< "$found" | counts | head -n 1)"
    touch -d "1 hour ago" "$clone/crates/high/out/rlib/stamp" && rm "$clone/crates/high/out/rlib/stamp"
fi

expect "a build that fails" "[1/3] 2 left; what is proved stays, also where this is ended
[2/3] high, 0 min, 1 left
error: high
build: it failed with status 1; all of it is in CLONE/crates/ct_main/out/build.log
status 1" "$(FAILS=yes PATH=$kit "$clone/bin/build" 2>&1 | sed "s|$clone|CLONE|"; echo "status ${PIPESTATUS[0]}")"
expect "a build" "[2/3] 1 left; what is proved stays, also where this is ended
built in 0 min: CLONE/crates/ct_main/out/ct_main
status 0" "$(PATH=$kit "$clone/bin/build" 2>&1 | sed "s|$clone|CLONE|"; echo "status ${PIPESTATUS[0]}")"

expect "a build for each processor" "run -- audit data/tiny.json" "$(< "$clone/crates/ct_main/out/words")"
CAPFW_CPU=x86-64-v3 PATH=$kit "$clone/bin/build" 2> "$work/said"
expect "a build for later processors" "run --cpu x86-64-v3 -- audit data/tiny.json" \
    "$(< "$clone/crates/ct_main/out/words")"

expect "a program" "program: run a.json 100
status 3" "$(said run a.json 100)"
expect "another folder" "program: run a.json
status 2" "$(cd / && said -C "$clone/sample" run a.json)"
expect "another folder, from below" "program: run a.json
status 2" "$(cd "$clone" && PATH=$kit bin/capfw -C sample run a.json; echo "status $?")"
expect "no other folder" "capfw: -C wants a folder, and this is none: nosuch
status 125" "$(said -C nosuch run a.json)"
expect "-C alone" "capfw: -C wants a folder, and this is none: 
status 125" "$(said -C)"
if [ $has_terminal ]; then
    expect "a short run on a terminal" "program: run a.json
status 2" "$(on_terminal "$clone/bin/capfw" run a.json)"
    expect "a long run counts on a terminal" "<capfw: N s<program: run a.json
<_status 2" "$(SLOW=yes on_terminal "$clone/bin/capfw" run a.json | counts)"
    expect "a long run that is interrupted" "status -2" \
        "$(SLOW=yes on_terminal --type ^C --keys 1 "$clone/bin/capfw" run a.json | sed 's/^^C//')"
    expect "only its output in a file" "program: run a.json" \
        "$(SLOW=yes on_terminal --output "$work/output" "$clone/bin/capfw" run a.json > /dev/null; cat "$work/output")"
fi
ln -s "$clone/bin/capfw" "$work/linked"
expect "a link to the command" "program: a
status 1" "$("$work/linked" a 2>&1; echo "status $?")"
expect "--version" "capfw $(< "$here/VERSION")
the program is the one that bin/build proved and made, after the last change of a source
logic=proved functions=4
a kit
status 0" "$(said --version)"
echo "# other" >> "$clone/crates/ct_main/out/ct_main"
other="capfw $(< "$here/VERSION")
the program isn't one that bin/build made: whether it is proved, nothing here says
a kit
status 0"
expect "--version of another program" "$other" "$(said --version)"
mv "$clone/crates/ct_main/out/built" "$work/built"
expect "--version without what bin/build leaves" "$other" "$(said --version)"
mv "$work/built" "$clone/crates/ct_main/out/built" && cp "$work/program" "$clone/crates/ct_main/out/ct_main"
touch -d "1 minute" "$clone/crates/high/src/lib.rt"
expect "--version after a change" "capfw $(< "$here/VERSION")
the program is older than crates/high/src/lib.rt; bin/build makes it anew
a kit
status 0" "$(said --version)"
forms=$(said --help | grep -o '^capfw [a-z]*' | sort | tr '\n' ' ')
expect "--help names each command" \
    "capfw  capfw  capfw audit capfw check capfw demo capfw image capfw run capfw runimage capfw upgrade capfw why " \
    "$forms"
exit $status
