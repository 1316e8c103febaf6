#!/usr/bin/env python3
"""Judges a firmware by rules with comments and groups: those of `capfw check`, and some that these can't say.

    rules.py [--capfw PROGRAM] DESC RULES     judges the description by the rules
    rules.py --policy RULES                   writes the policy alone that `capfw check` is handed

RULES has policies' lines (docs/use/policies.md). Behind # stands a comment. `group NAME = WORD..` gives words one name,
which stands for them wherever a rule has a name, and the things of a rule may be several: there is a line of the policy
for each, of `apart A B` for each of A and each other one of B, and `apart all` is every two compartments. Each such
line is judged by `capfw check`. By the report alone this script judges `.. only nobody`, which no holder keeps, and
`read` or `write` before `device` or `shared`: only these may load, or store, there; nothing of that is proved.

It writes the line of the rules for each denial, who denied it, and the entry or the path; or `allow`, and how many
rules each judged. Status 0: allowed. Status 12: denied. Else what capfw refuses with.
"""
import collections
import os
import sys
import tempfile

sys.dont_write_bytecode = True
import manners  # noqa: E402
from program import add_program, program_of, ran  # noqa: E402
from reports import report_of, text  # noqa: E402

NOBODY, ALL, ONLY = "nobody", "all", "only"
DENIED = 12
RIGHTS = {"read": "LD", "write": "SD"}
IMPORTS = "device", "shared", "service", "call"
# A line of a policy, or a rule of this script's own: its number in the file of rules, and its words.
Rule = collections.namedtuple("Rule", "number words")


class Rules:
    """The rules of a file: the policy's lines, the own ones, and pairs of groups that wait for the compartments."""

    def __init__(self, lines):
        self.groups, self.policy, self.own = {}, [], []
        for number, line in enumerate(lines, 1):
            words = line.split("#")[0].split()
            if words[:1] == ["group"]:
                self.group(number, words)
            elif words:
                self.rule(number, words)

    def group(self, number, words):
        if len(words) < 4 or words[2] != "=" or words[1] in self.groups:
            raise manners.Refusal(f"line {number}: group NAME = WORD.. is wanted, with a new name")
        self.groups[words[1]] = self.names(words[3:])

    def names(self, words):
        """Names, with those of each group in its place."""
        return list(dict.fromkeys(name for word in words for name in self.groups.get(word, [word])))

    def rule(self, number, words):
        kind, *rest = words
        if kind in RIGHTS:
            self.rights(number, words)
        elif ONLY in rest:
            at = rest.index(ONLY)
            for name in self.names(rest[:at]) or [None]:
                subject = [kind] if name is None else [kind, name]
                self.add(number, subject, self.names(rest[at + 1:]))
        elif kind == "data":
            self.policy += [Rule(number, ["data", name]) for name in self.names(rest)]
        elif words == ["apart", ALL]:
            self.policy.append(Rule(number, words))
        elif kind == "apart" and len(rest) == 2:
            firsts, seconds = (self.names([word]) for word in rest)
            self.policy += [Rule(number, ["apart", a, b]) for a in firsts for b in seconds if a != b]
        else:
            self.policy.append(Rule(number, words))

    def rights(self, number, words):
        right, kind, *rest = words
        if kind not in ("device", "shared") or ONLY not in rest:
            raise manners.Refusal(f"line {number}: {right} device NAME only OWNER.. is wanted, or of shared")
        at = rest.index(ONLY)
        self.own += [Rule(number, [right, kind, name, ONLY, *self.names(rest[at + 1:])])
                     for name in self.names(rest[:at])]

    def add(self, number, subject, owners):
        rows = self.own if owners == [NOBODY] else self.policy
        rows.append(Rule(number, [*subject, ONLY, *owners]))

    def whole(self, compartments):
        """The policy's lines, with every two compartments where all are to be apart."""
        pairs = [["apart", a, b] for n, a in enumerate(compartments) for b in compartments[n + 1:]]
        for rule in self.policy:
            yield from [Rule(rule.number, pair) for pair in pairs] if rule.words == ["apart", ALL] else [rule]


def parts(rule):
    """Of an own rule the right that it is about, the kind and the name of a thing, and the owners that may hold it."""
    right, words = RIGHTS.get(rule.words[0]), rule.words[rule.words[0] in RIGHTS:]
    at = words.index(ONLY)
    if words[:at] != ["disabled"] and (words[0] not in IMPORTS or at != 2):
        raise manners.Refusal(f"line {rule.number}: no rule is about {' '.join(words[:at])}")
    return right, words[0], words[1] if at > 1 else "", [word for word in words[at + 1:] if word != NOBODY]


def broken(report, rule):
    """The entries that break a rule which the report is judged by."""
    right, kind, name, owners = parts(rule)
    if kind == "disabled":
        return [entry for entry in report.of_kind("export") if entry["posture"] == "disabled"]
    return [entry for entry in report.of_kind(kind) if entry["of"] == name and entry["owner"] not in owners
            and (right is None or right in entry["rights"].split())]


def names_of(report, rule):
    """A line of a policy that each firmware keeps in which there is what an own rule names."""
    _, kind, name, owners = parts(rule)
    return Rule(rule.number, [*([kind, name] if name else [kind]), ONLY, *dict.fromkeys(report.owners + owners)])


def judged(program, desc, rows):
    """The status of `capfw check` by these lines, and of each line that it answers the row and what it says."""
    with tempfile.TemporaryDirectory() as folder:
        path = os.path.join(folder, "policy")
        with open(path, "w", encoding="utf-8") as file:
            file.write("".join(" ".join(row.words) + "\n" for row in rows))
        status, output = ran([program, "check", desc, path])
    answers = [line.split(" ") for line in output.decode("utf-8", "replace").splitlines()]
    if status == 13:
        number = int(answers[0][-1])
        return status, [(rows[number - 1], f"refuses as {answers[0][-2]}")]
    if status not in (0, DENIED):
        raise manners.Refusal(" ".join(answers[0]) if answers else f"capfw ends with status {status}")
    return status, [(rows[int(words[1]) - 1], " ".join(words[2:])) for words in answers if words[0] == "denied"]


def said(report, answer):
    """An answer with the entry that it names, in words."""
    if not answer.isdigit():
        return answer
    entry = report.entry[int(answer)]
    return f"entry {answer}, {entry['owner']}: {text(entry)}"


def main(words):
    parser = manners.Words(__doc__)
    add_program(parser)
    parser.add_argument("--policy", action="store_true")
    parser.add_argument("files", nargs="+")
    options = parser.parse_args(words)
    if len(options.files) != 2 - options.policy:
        parser.error("RULES is wanted" if options.policy else "DESC and RULES are wanted")
    rules = Rules(manners.lines_in(options.files[-1]))
    if options.policy:
        for rule in rules.whole([]):
            print(" ".join(rule.words))
        return 0
    program = program_of(options)
    status, output = ran([program, "audit", options.files[0]])
    if status:
        raise manners.Refusal(output.decode("utf-8", "replace").rstrip("\n") or f"capfw ends with status {status}")
    report, _ = report_of(output.decode().splitlines(keepends=True))
    rows = list(rules.whole(report.compartments))
    named = [names_of(report, rule) for rule in rules.own]
    status, answers = judged(program, options.files[0], rows + named)
    found = [(rule.number, f"capfw denies `{' '.join(rule.words)}`: {said(report, answer)}") if status != 13 else
             (rule.number, f"capfw {answer}: {' '.join(rule.words)}") for rule, answer in answers]
    found += [(rule.number, f"the report denies `{' '.join(rule.words)}`: {said(report, str(entry['number']))}")
              for rule in rules.own for entry in broken(report, rule)]
    for number, line in sorted(found, key=lambda row: row[0]):
        print(f"{options.files[1]}:{number}: {line}")
    if not found:
        print(f"allow: {len(rows)} rules by capfw check, {len(rules.own)} by the report")
    return status or (DENIED if found else 0)


if __name__ == "__main__":
    manners.run(main)
