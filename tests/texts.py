#!/usr/bin/env python3
"""Worked rows of what texts are read as: the JSON of descriptions, names of scripts, words of policies.

    texts.py OUT     writes the cases that cases.py tells of

A row of a description has one text, which stands in one of every part, written otherwise. The answers were worked out
from docs/use/description.md, run.md and policies.md and from RFC 8259. A lawful one is read as far as the file of its
library's code, which isn't there.
"""
import json

from cases import case, sample, stored_file
from firmwares import WHOLE, board

COUNT = [0]


def judged(data, wanted):
    """A row of a description's bytes."""
    COUNT[0] += 1
    case(f"text_{COUNT[0]}", ["audit", "{}"], data, wanted + "\n")


def altered(old, new, wanted):
    assert WHOLE.count(old) == 1, old
    judged(WHOLE.replace(old, new), wanted)


def faulty(number, rows):
    for old, new, place in rows:
        altered(old, new, f"refused 4 description F{number} {place}")


def lawful(rows):
    for old, new in rows:
        altered(old, new, "refused 2 read nohex.s")


# ---- bytes before, within and after the text: a byte order mark is part of what is read

NO_TEXT = "refused 4 description F1 firmware 0 0"
BYTES = WHOLE.encode()
for text in ("", " ", "null,", WHOLE + "{}", WHOLE + "\0", "\0" + WHOLE, "\N{NO-BREAK SPACE}" + WHOLE, "\f" + WHOLE,
             WHOLE + "\v", "\ufeff" + WHOLE, " \ufeff" + WHOLE, WHOLE + "\ufeff", WHOLE[:-1], WHOLE + "}"):
    judged(text, NO_TEXT)
for data in (WHOLE.encode("utf-16"), WHOLE.encode("utf-16-le"), WHOLE.encode("utf-32-be"), BYTES + b"\xff"):
    judged(data, NO_TEXT)
# Bytes that are no UTF-8: a part of a letter, one in more bytes than it takes, half a pair, and one past the last.
for letter in b"\x80", b"\xc3", b"\xc0\xaf", b"\xe0\x80\xaf", b"\xed\xa0\x80", b"\xf4\x90\x80\x80":
    judged(BYTES.replace(b"nohex.s", b"no" + letter + b"hex.s"), NO_TEXT)
judged(" \t\r\n" + WHOLE + "\n\r\t ", "refused 2 read nohex.s")
for text in "null", "true", "7", '"{}"':
    judged(text, "refused 4 description F2 firmware 0 0")

# ---- words of other than eight digits, a label where code is words, a member beside a file's name

faulty(2, [
    ('"ff82b283"', '"ff82b2830"', 'compartment 0 0'),
    ('"ff82b283"', '"ff82b28"', 'compartment 0 0'),
    ('{"file":"nohex.s"}', '{"words":["0000806"]}', 'library 0 0'),
    ('{"file":"nohex.s"}', '{"words":["00008067"]}', 'lexport 0 0'),
])
faulty(3, [('{"file":"nohex.s"}', '{"base":0,"file":"nohex.s"}', 'library 0 0')])

# ---- what the text of a description is read as

# Of a member that stands twice the last one holds, whole. A text, and a member's name, may be written by escapes.
lawful([
    ('"limit":96', '"limit":-1,"limit":96'),
    ('"limit":96', '"\\u006cimit":-1,"limit":96'),
    ('"ram":', '"ram":{"base":0,"end":7},"ram":'),
    ('{"name":"q","limit":96}', '{"limit":"96","name":"","name":"q","limit":96}'),
    ('"keys":[13]', '"keys":[16,16],"keys":[13]'),
    ('"name":"app"', '"name":"\\u0061p\\u0070"'),
    ('"kind":"uart"', '"k\\u0069nd":"u\\u0061rt"'),
    ('"at":"digit"', '"\\u0061t":"\\u0064igit"'),
    ('"limit":96', ' "limit" : 96 \t\r\n'),
])
faulty(2, [
    ('"limit":96', '"limit":96,"limit":-1', 'quota 0 0'),
    ('"limit":96', '"limit":96,"\\u006cimit":-1', 'quota 0 0'),
    ('"keys":[13]', '"keys":[13],"keys":13', 'compartment 0 0'),
    ('"ram":{"base":2147483648,"size":4096}', '"ram":{"base":2147483648},"ram":{"size":4096}', 'ram 0 0'),
])
faulty(4, [
    ('"name":"t"', '"name":"\\u0000"', 'thread 0 0'),
    ('"name":"t"', '"name":"\\ud83d\\ude00"', 'thread 0 0'),
    ('"name":"t"', '"name":"t\\n"', 'thread 0 0'),
])
# A refusal prints a file's name, so it shows what an escape stands for, and which bytes need none.
for written, read in (('\\"', '"'), ("\\\\", "\\"), ("\\/", "/"), ("\\b", "\b"), ("\\f", "\f"), ("\\n", "\n"), ("\\r", "\r"),
                      ("\\t", "\t"), ("\\u0000", "\0"), ("\\u001F", "\x1f"), ("\\u00e9", "\xe9"), ("\\u00E9", "\xe9"),
                      ("\\u20ac", "\u20ac"), ("\\uFFFF", "\uffff"), ("\\ud83d\\ude00", "\U0001f600"),
                      ("\\uD800\\uDC00", "\U00010000"), ("\\udbff\\udfff", "\U0010ffff"), ("\\u005cu0041", "\\u0041"),
                      ("\x7f", "\x7f"), ("\u2028", "\u2028"), ("\ufeff", "\ufeff")):
    altered('"file":"nohex.s"', f'"file":"no{written}hex.s"', f"refused 2 read no{read}hex.s")
# A number is written by digits alone, and is less than 2^64; one that no floating point holds is no JSON text.
faulty(2, [('"limit":96', f'"limit":{number}', "quota 0 0") for number in (
    "-0", "-96", "96.0", "96e0", "9.6e1", "9600E-2", "96E+0", "0e0", "-0.0", "0.0", "1e-400", "18446744073709551616",
    "1" + "0" * 308, "1e308", '"96"', "null", "true", "[96]")])
faulty(6, [('"limit":96', f'"limit":{number}', "quota 0 0")
            for number in ("18446744073709551615", "4294967296", "2147483648")])
# It is no JSON text: numbers, escapes, bytes and commas that may not stand so.
faulty(1, [
    *[('"limit":96', f'"limit":{number}', "firmware 0 0")
      for number in ("1e400", "-1e400", "1e309", "1" + "0" * 309, "096", "00", "-096", "-", "+96", ".96", "96.",
                     "96.e0", "96e", "96e+", "9 6", "- 96", "0x60", "NaN", "Infinity", "True", "nul", "96,", ",96", "")],
    *[('"name":"t"', f'"name":"{text}"', "firmware 0 0") for text in (
        "\\ud800", "\\udfff", "\\ude00\\ud83d", "\\ud83dt", "\\ud83d\\t", "\\ud83d\\u0074", "\\ud83d\\ud83d\\ude00",
        "\\x74", "\\u74", "\\u007g", "\\'", "\\N", "\\", "t\t", "t\n", "t\0", "t\x1f")],
    ('"keys":[13]', '"keys":[13,]', "firmware 0 0"),
    ('"keys":[13]', '"keys":[,13]', "firmware 0 0"),
    ('"keys":[13]', '"keys":[13 14]', "firmware 0 0"),
    ('"keys":[13]', '"keys":[13}', "firmware 0 0"),
    ('"keys":[13]', '"keys" [13]', "firmware 0 0"),
    ('"keys":[13]', '"keys":[13],', "firmware 0 0"),
    ('"keys":[13]', '"keys":[13]/* */', "firmware 0 0"),
    ('"keys":[13]', '"keys":[13]\0', "firmware 0 0"),
    ('"keys":[13]', 'keys:[13]', "firmware 0 0"),
    ('"keys":[13]', 'null:[13]', "firmware 0 0"),
    ("\"name\":\"t\"", "'name':'t'", "firmware 0 0"),
])
# 127 lists and objects may be open at once, the description among them. What is closed isn't, nor what is a text.
LIST, OBJECT = ("[", "]"), ('{"a":', "}")


def nested(count, *kinds):
    """So many lists or objects, each within the one before."""
    rows = [kinds[number % len(kinds)] for number in range(count)]
    return "".join(opens for opens, _ in rows) + "0" + "".join(closes for _, closes in reversed(rows))


for kinds in (LIST,), (OBJECT,), (LIST, OBJECT):
    for fault, count in (3, 126), (1, 127), (1, 5000):
        faulty(fault, [('"firmware":"f"', f'"firmware":"f","deep":{nested(count, *kinds)}', "firmware 0 0")])
for flat in f"[{'[],' * 200}{{}}]", f'"{"[" * 200}"':
    faulty(3, [('"firmware":"f"', f'"firmware":"f","flat":{flat}', "firmware 0 0")])

# ---- names of scripts: any bytes but blanks and line feeds

def script(name, text):
    case("text_script_" + name, ["run", "{}", "100", stored_file(f"text_{name}.script", text)],
         json.dumps(sample("tiny")), "refused 8 script S3 1\n")


script("other_letters", "2 u\N{LATIN SMALL LETTER E WITH ACUTE} 65\n")
script("no_letters", b"2 \xff\x80 65\n")
script("a_zero", b"2 uart0\0 65\n")
script("carriage_return", "2 uart0\r 65\n")

# ---- words of policies: a carriage return is part of the word before it, as an editor of Windows leaves it

for number, (text, place) in enumerate((("device uart0 only app\r\n", 1), ("quota app 1\nquota app\r 64\n", 2))):
    case(f"text_policy_{number}", ["check", "{}", stored_file(f"text_{number}.policy", text)], json.dumps(board()),
         f"refused 13 policy P2 {place}\n")
