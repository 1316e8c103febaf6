"""The word of a policy or a script that a fault P1, P2, S1, S2 or S3 is about (docs/use/policies.md, run.md)."""
import re

from places import tables
from places.texts import Found, meant

MOST_QUOTA_SUM = 2_199_023_255_551
MOST_STEP = 4_000_000_000
FORMS = {"device": "device NAME only OWNER..", "shared": "shared NAME only OWNER..", "service":
         "service NAME only OWNER..", "call": "call COMP.EXPORT only OWNER..", "disabled": "disabled only OWNER..",
         "data": "data COMP.EXPORT", "quota": "quota total N, or quota OWNER N", "apart": "apart OWNER COMP"}


class Fault(Exception):
    """A fault of a line: its number, the range in the line, why, and hints."""

    def __init__(self, number, span, says, *hints):
        super().__init__(says)
        self.number, self.span, self.says, self.hints = number, span, says, list(hints)


class Line:
    """A line in words, between which one space stands."""

    def __init__(self, line, ended):
        self.line, self.ended = line, ended
        self.spans = [match.span() for match in re.finditer("[^ ]+", line)]
        self.words = [line[start:end] for start, end in self.spans]

    def behind(self):
        """The place behind the last word."""
        end = self.spans[-1][1] if self.spans else 0
        return end, end + 1

    def spaced(self, number, hint):
        """Refuses a line that isn't words with one space between and a line feed behind."""
        for match in re.finditer("^ +|(?<= ) +| +$", self.line):
            raise Fault(number, match.span(), "one space stands between words, and none before or behind", hint)
        if not self.words:
            raise Fault(number, (0, 1), "the line is empty", "take it out")
        if not self.ended:
            raise Fault(number, (len(self.line), len(self.line) + 1), "no line feed stands behind the last line",
                        "end it with one")


def returned(word):
    """A hint on a word that ends with a carriage return."""
    return ["the line ends with a carriage return: store the file with the line ends of Unix"] * word.endswith("\r")


def in_lines(text):
    for number in range(1, len(text.starts) + 1):
        ended = number < len(text.starts)
        if ended or text.line(number):
            yield number, Line(text.line(number), ended)


def found(text, letter, number, fault):
    start = text.at(number, fault.span[0] + 1)
    return Found(text, start, start + fault.span[1] - fault.span[0], "", f"{letter}{fault.number}: {fault.says}",
                 fault.hints)


# ---- policies

class Names:
    """What the names of a policy may stand for."""

    def __init__(self, d):
        self.owners = d.names("compartments") + d.names("libraries")
        self.compartments, self.threads = d.names("compartments"), d.names("threads")
        self.lists = {"device": d.names("devices"), "shared": d.names("shared"), "service": tables.SERVICES,
                      "call": d.exports("compartments")}
        self.lent = d.exports("libraries")


def number_fault(word, least, most):
    """Why a word isn't a number from least to most, or None."""
    if not re.fullmatch("[0-9]+", word):
        return "a number in decimal digits is wanted"
    if len(word) > 1 and word[0] == "0":
        return "a number has no leading zero"
    return None if least <= int(word) <= most else f"{least} to {most} is wanted"


def one_point(line, at):
    if line.words[at].count(".") != 1:
        raise Fault(1, line.spans[at], "COMP.EXPORT is wanted, with one point")


def counted(line, count, hint):
    if len(line.words) > count:
        raise Fault(1, line.spans[count], "nothing more may stand here", hint)
    if len(line.words) < count:
        raise Fault(1, line.behind(), "a word is missing here", hint)


def form(line):
    """Refuses a line that has no form of a rule."""
    strange = re.search("[^\0-\x7f]", line.line)
    if strange:
        raise Fault(1, strange.span(), "a policy is ASCII throughout")
    line.spaced(1, "the forms are in docs/use/policies.md")
    first = line.words[0]
    if first not in FORMS:
        hints = ["policies have no comments"] if first.startswith(("#", "//")) else meant(first, FORMS, "rules")
        raise Fault(1, line.spans[0], "no rule begins so", *hints)
    hint = "written " + FORMS[first]
    if first in ("data", "apart", "quota"):
        counted(line, 2 if first == "data" else 3, hint)
    else:
        only = 1 if first == "disabled" else 2
        if len(line.words) <= only + 1 and line.words[only:] in ([], ["only"]):
            raise Fault(1, line.behind(), "a word is missing here", hint)
        if line.words[only] != "only":
            raise Fault(1, line.spans[only], '"only" is wanted here', hint)
    if first in ("data", "call"):
        one_point(line, 1)
    if first == "quota":
        why = number_fault(line.words[2], 0, MOST_QUOTA_SUM)
        if why:
            raise Fault(1, line.spans[2], why, *returned(line.words[2]))


def named(line, names):
    """Each word that is a name, by its index, with what it may be and a word for that."""
    first = line.words[0]
    if first in names.lists:
        yield 1, names.lists[first], {"call": "exports", "shared": "shared objects"}.get(first, first + "s")
    if first == "data":
        yield 1, names.lists["call"], "exports"
    if first == "apart":
        yield 1, names.owners, "owners"
        yield 2, names.compartments, "compartments"
    if first == "quota" and line.words[1] != "total":
        yield 1, names.owners, "owners"
    if "only" in line.words[1:3] and first not in ("data", "apart", "quota"):
        for at in range(2 if first == "disabled" else 3, len(line.words)):
            yield at, names.owners, "owners"


def name_fault(line, names):
    for at, known, what in named(line, names):
        word = line.words[at]
        if word in known:
            continue
        hints = returned(word) or meant(word, known, what) or [f"there are no {what}"]
        if word in names.threads and what == "owners":
            hints = ["it is a thread, which owns nothing but its stack"]
        elif word in names.lent:
            hints = ["it is an export of a library; call and data know those of compartments"]
        elif word in names.owners and what == "compartments":
            hints = ["it is a library; a compartment is wanted"]
        elif word == "switch":
            hints = ["switch is no service that a rule names"]
        raise Fault(2, line.spans[at], f'"{word.rstrip(chr(13))}" is none of the {what}', *hints)


def first_of_policy(text, d):
    """The fault of a policy: its number, its line, and what is found there. None where there is none."""
    names = Names(d)
    for number, line in in_lines(text):
        try:
            form(line)
            name_fault(line, names)
        except Fault as fault:
            return f"P{fault.number}", number, found(text, "P", number, fault)
    return None


# ---- scripts

def step_form(line):
    """Refuses a line that isn't STEP NAME BYTE."""
    hint = "written STEP NAME BYTE"
    blank = re.search("\t", line.line)
    if blank and len(line.words) != 3:
        raise Fault(1, blank.span(), "one space stands between words, and no tab", hint)
    line.spaced(1, hint)
    counted(line, 3, hint)
    for at, least, most in ((0, 1, MOST_STEP), (2, 0, 255)):
        why = number_fault(line.words[at], least, most)
        if why:
            raise Fault(1, line.spans[at], why, *(returned(line.words[at]) or [hint]))


def first_of_script(text, devices):
    """The fault of a script, by the names of devices and their kinds."""
    last, ports = 0, [name for name, kind in devices if kind != "timer"]
    for number, line in in_lines(text):
        try:
            step_form(line)
            step, name = int(line.words[0]), line.words[1]
            if step < last:
                raise Fault(2, line.spans[0], f"step {step} stands behind step {last}",
                            "sort -s -n -k1,1 brings the lines into order")
            if name not in ports:
                why = "it is a timer, which takes no bytes" if (name, "timer") in devices else "no device is named so"
                raise Fault(3, line.spans[1], why, *meant(name, ports, "serial ports and gpios"))
            last = step
        except Fault as fault:
            return f"S{fault.number}", number, found(text, "S", number, fault)
    return None
