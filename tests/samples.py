#!/usr/bin/env python3
"""Every sample: its report, its run, its answers to why, and its policy.

    samples.py OUT     writes the cases that cases.py tells of

A sample is a folder NAME with the description NAME.json, its sources, and what was worked out apart from the program:
report.json is what `audit` writes, run.txt what a run writes after it of at most STEPS steps, or USUAL_STEPS, by the
script NAME.script where there is one. Each line of why.txt has an owner, a compartment and what `why` writes of them. NAME.policy, where
it stands, is a policy that the report keeps. The plain machine and the reference of reports must write the same. The
program is handed each file by its own name, so what two samples have under one name must be the same.
"""
import os

from cases import SAMPLES, case, images, lines, link, modelled, reports, sample, text_of

STEPS = {"gateway": 2000}
USUAL_STEPS = 200
SUFFIXES = ".s", ".script", ".policy"


def files_of(name):
    """The names of a sample's files that a command may read beside its description."""
    return sorted(file for file in os.listdir(os.path.join(SAMPLES, name)) if file.endswith(SUFFIXES))


def text_if(name, file):
    return text_of(name, file) if os.path.exists(os.path.join(SAMPLES, name, file)) else ""


def cases_of(name):
    """The cases of a sample, held against the plain machine and the reference of reports."""
    description, files = text_of(name, name + ".json"), files_of(name)
    data = link(sample(name), {file: text_of(name, file).split("\n") for file in files})
    report, run = text_of(name, "report.json"), text_of(name, "run.txt")
    steps = STEPS.get(name, USUAL_STEPS)
    script = [name + ".script"] if name + ".script" in files else []
    assert report == lines(reports.report(data)), name
    assert run == lines(*modelled(data, steps, text_if(name, name + ".script"))), name
    case(name + "-audit", ["audit", "{}"], description, report)
    case(name + "-run", ["run", "{}", str(steps), *script], description, report + run)
    ways = list(reports.ways(images.read(data)))
    for row in text_if(name, "why.txt").splitlines():
        owner, compartment, answer = row.split(" ", 2)
        assert (owner, compartment, answer) in ways, (name, row)
        case(f"{name}-why-{owner}-{compartment}", ["why", "{}", owner, compartment], description, lines(answer))
    if name + ".policy" in files:
        case(name + "-check", ["check", "{}", name + ".policy"], description, "allow\n")


SEEN = {}
for name in sorted(os.listdir(SAMPLES)):
    if os.path.isdir(os.path.join(SAMPLES, name)):
        cases_of(name)
        for file in files_of(name):
            assert SEEN.setdefault(file, text_of(name, file)) == text_of(name, file), f"another {file} stands in {name}"
            print(f"{file}={os.path.abspath(os.path.join(SAMPLES, name, file))}")
