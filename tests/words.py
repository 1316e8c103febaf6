#!/usr/bin/env python3
"""Worked rows of the command line's words, worked out from docs/use/errors.md and docs/use/run.md.

    words.py OUT     writes the cases that cases.py tells of

A word is taken as it stands: none is left out because it is empty, none is trimmed, and capitals are other letters. A
word that isn't UTF-8 is no word of a form. The files spaced.json and none.json are the smallest sample and nothing.
"""
import json

from cases import case, lines, report, sample, stored_file
from firmwares import small_board

TINY, BOARD = (json.dumps(firmware) for firmware in (sample("tiny"), small_board()))
SPACED = stored_file("spaced.json", TINY)
NUMBERS = {}


def row(kind, words, wanted, data=TINY):
    NUMBERS[kind] = NUMBERS.get(kind, 0) + 1
    case(f"words_{kind}_{NUMBERS[kind]}", words, data, wanted)


def usage(kind, *all_words):
    for words in all_words:
        row(kind, words, "refused 1 usage\n")


def unread(kind, *all_words):
    """The last word is a file that isn't there."""
    for words in all_words:
        name = words[-1].encode()
        row(kind, words, b"refused 2 read " + name + b"\n")


row("whole", ["audit", SPACED], lines(report(json.loads(TINY))))

# Too few, too many, and words that begin no form.
usage("count", [], ["audit"], ["audit", "{}", "{}"], ["run", "{}"], ["run", "{}", "1", "a", "b"], ["runimage", "{}"],
      ["why", "{}", "app"], ["why", "{}", "app", "app", "app"], ["check", "{}"], ["demo"], ["demo", "0", "0"],
      ["image"], ["image", "{}", "{}"], ["upgrade"], ["upgrade", "{}", "{}"], ["runimage", "{}", "1", "a", "b"])
usage("form", ["--help"], ["--version"], ["report", "{}"], ["audit.", "{}"], ["audi", "{}"], ["--", "audit", "{}"])

# Empty words stand where they stand.
usage("empty", [""], ["", "{}"], ["audit", "{}", ""], ["", "audit", "{}"], ["run", "{}", ""], ["run", "", "{}", "1"],
      ["demo", ""])
unread("empty", ["audit", ""], ["image", ""], ["run", "{}", "100", ""], ["check", "{}", ""])
row("empty", ["why", "{}", "", "app"], "refused 11 name\n", BOARD)
row("empty", ["why", "{}", "app", ""], "refused 11 name\n", BOARD)

# Spaces and tabs belong to a word.
usage("space", [" "], [" audit", "{}"], ["audit ", "{}"], ["audit\t", "{}"], ["run", "{}", " 100"],
      ["run", "{}", "100 "], ["demo", " 0"], ["demo", "0\t"], ["audit {}"])
unread("space", ["audit", " " + SPACED], ["audit", SPACED + " "], ["audit", "\t" + SPACED], ["audit", " "],
       ["run", "{}", "100", " "])
row("space", ["why", "{}", "app ", "app"], "refused 11 name\n", BOARD)
row("space", ["why", "{}", "app", " app"], "refused 11 name\n", BOARD)

# Capitals are other letters.
usage("capital", ["AUDIT", "{}"], ["Audit", "{}"], ["run", "{}", "1E2"], ["demo", "0X0"])
unread("capital", ["audit", SPACED.upper()], ["audit", SPACED.capitalize()])
row("capital", ["why", "{}", "APP", "app"], "refused 11 name\n", BOARD)
row("capital", ["why", "{}", "app", "App"], "refused 11 name\n", BOARD)

# Numbers have one spelling: no sign, no leading zero, no point, no other digits; and their limits.
usage("number", ["run", "{}", "+1"], ["run", "{}", "-1"], ["run", "{}", "01"], ["run", "{}", "0x1"], ["run", "{}", "1."],
      ["run", "{}", "1_0"], ["run", "{}", "\N{FULLWIDTH DIGIT ONE}"], ["run", "{}", "0"], ["run", "{}", "4000000001"],
      ["run", "{}", "18446744073709551617"], ["runimage", "{}", "0"], ["runimage", "{}", "4000000001"],
      ["demo", "+0"], ["demo", "00"], ["demo", "4294967296"], ["demo", "18446744073709551616"])
for most in "4000000000", "1":
    unread("number", ["run", "{}", most, "nosuch.script"])

# Words that aren't UTF-8: a byte alone, a character cut short, one spelled too long, half of a pair; and one that is.
for bad in (b"\xff", b"caf\xc3", b"\xc0\xaf", b"\xed\xa0\x80"):
    usage("bytes", [bad], [bad, "{}"], ["audit", bad], ["run", "{}", bad], ["run", "{}", "100", bad],
          ["why", "{}", bad, "app"], ["demo", bad])
unread("bytes", ["audit", "caf\N{LATIN SMALL LETTER E WITH ACUTE}.json"], ["audit", "\N{GRINNING FACE}"])
