#!/usr/bin/env python3
"""A manual page of capfw, or the completion of its words for bash, made from docs/use/run.md.

    manual.py > capfw.1             the page, in the macros of man: `man ./capfw.1`
    manual.py --bash > capfw.bash   the completion: `source capfw.bash`

Commands, their words and what each does are the page's table "Words"; statuses are the heads of docs/use/errors.md.
"""
import os
import re
import sys

sys.dont_write_bytecode = True
import manners  # noqa: E402

PAGES = os.path.join(os.path.dirname(os.path.abspath(__file__)), "..", "docs", "use")
SUFFIXES = {"DESC": "json", "IMAGE": "image", "SCRIPT": "script", "POLICY": "policy"}


def rows(text):
    """Each form of a command, in words, and what it does."""
    part = text.split("## Words\n", 1)[1].split("\n## ", 1)[0]
    for forms, does in re.findall(r"^\| (`.*?`) \| (.*) \|$", part, re.M):
        for form in re.findall("`([^`]*)`", forms):
            yield form.split(" "), does


def plain(text):
    """A page's text without its marks, and a backslash for man's own."""
    bare = re.sub(r"\s*\(\[[^]]*\]\([^)]*\)\)|\s*\(\[.*?\]\([^)]*\)\)", "", text)
    bare = re.sub(r"\[([^]]*)\]\([^)]*\)", r"\1", bare).replace("`", "").replace("**", "")
    return bare.replace("\\", "\\e").replace("-", "\\-")


def manual(run, errors):
    """The lines of the manual page."""
    yield from ('.TH CAPFW 1', '.SH NAME', 'capfw \\- links, audits and runs firmware of compartments', '.SH SYNOPSIS')
    for form, _ in rows(run):
        words = " ".join(f"\\fI{word}\\fR" if word.isupper() else f"\\fB{word}\\fR" for word in form)
        yield from (f"\\fBcapfw\\fR {words}", ".br")
    yield ".SH COMMANDS"
    for form, does in rows(run):
        yield from (".TP", f".B {' '.join(form)}", plain(does) + ".")
    after = run.split("## Words\n", 1)[1].split("\n## ", 1)[0].split("|\n\n", 1)[1]
    parts = [plain(part) for part in after.strip().split("\n\n")]
    yield from (".SH FILES AND NUMBERS", *"\n.PP\n".join(parts).split("\n"))
    yield ".SH EXIT STATUS"
    for number, name in re.findall(r"^## (\d+):? (.*)$", errors, re.M):
        yield from (".TP", f".B {number}", plain(name))


def completion(run):
    """The lines of a completion for bash: commands first, and then files by their suffixes."""
    forms = {}
    for (command, *words), _ in rows(run):
        forms[command] = max(forms.get(command, []), words, key=len)
    yield from ("_capfw() {", '    local word=${COMP_WORDS[COMP_CWORD]}', '    case "$COMP_CWORD ${COMP_WORDS[1]}" in')
    yield f'        "1 "*) mapfile -t COMPREPLY < <(compgen -W "{" ".join(forms)} --help --version" -- "$word") ;;'
    for command, words in forms.items():
        for at, word in enumerate(words, 2):
            if word in SUFFIXES:
                files = f'compgen -f -X "!*.{SUFFIXES[word]}" -- "$word"'
                yield f'        "{at} {command}") mapfile -t COMPREPLY < <({files}) ;;'
    yield from ("    esac", "}", "complete -o filenames -F _capfw capfw")


def main(words):
    parser = manners.Words(__doc__)
    parser.add_argument("--bash", action="store_true")
    options = parser.parse_args(words)
    run, errors = (manners.text_in(os.path.join(PAGES, name)) for name in ("run.md", "errors.md"))
    for line in completion(run) if options.bash else manual(run, errors):
        print(line)


if __name__ == "__main__":
    manners.run(main)
