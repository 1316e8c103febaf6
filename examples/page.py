#!/usr/bin/env python3
"""One page of HTML for a review: the picture, who may use what, the policy with its verdict, and a run by names.

    capfw run FIRMWARE.json 1000 > run.txt
    capfw check FIRMWARE.json FIRMWARE.policy > verdict.txt
    page.py run.txt [FIRMWARE.policy verdict.txt] [--only WORD].. > FIRMWARE.html

run.txt is what `run` or `audit` wrote, or `-` for standard input: after an audit the page has no run. Of a run it has
the lines that `--only` asks for, as names.py does, and all where it asks for none; they are written as they are read.
The page is one file that a browser shows without a network; it has no scripts, and nothing in it comes from elsewhere.
"""
import itertools
import sys

sys.dont_write_bytecode = True
import authority  # noqa: E402
import cards  # noqa: E402
import devices  # noqa: E402
import manners  # noqa: E402
import names  # noqa: E402
import picture  # noqa: E402
import traces  # noqa: E402
from elements import STYLE, items, row, said, table, tag  # noqa: E402
from reports import report_in, report_read, text, title  # noqa: E402


# ---- sections: an id, a heading and what stands below it

def drawn(report):
    caption = said("figcaption", "Threads, compartments with what they hold, devices, objects and libraries. Numbers "
                                 "are those of the report's entries.")
    described = tag("details", said("summary", "The picture in words") + items(cards.words(report)))
    return "picture", "Picture", tag("figure", picture.Picture(report).drawn() + caption) + described


def touched(report):
    head, *rows = devices.rows(report)
    columns = [*head[:-1], "reaches"]
    return "devices", "Devices", table("Who may touch which device, and whom the holder reaches", columns, rows)


def used(report):
    parts = []
    for compartment in report.compartments:
        rows, paths = authority.entries_in(report, compartment)
        parts.append(said("h3", compartment))
        parts.append(table(f"What code in {compartment} may ever use", ["entry", "what", "held by"], rows)
                     if rows else said("p", "Nothing but its own code and globals."))
        parts.append(items(f"{owner} reaches it: {authority.reasons(report, path)}" for owner, path in paths.items())
                     if paths else "")
    return "authority", "What code may use", "\n".join(parts)


def judged(report, rules, verdict):
    """Each rule of a policy with what breaks it."""
    denied = {}
    for line in verdict:
        word, *more = line.split(" ")
        if word == "denied":
            by = " ".join(more[1:]) if more[1] == "path" else f"entry {more[1]}, {title(report.entry[int(more[1])])}"
            denied.setdefault(int(more[0]), []).append(by)
    rows = [(number, rule, (f"broken by {'; '.join(denied[number])}", "broken") if number in denied
             else ("kept", "kept")) for number, rule in enumerate(rules, 1)]
    if verdict[:1] == ["allow"]:
        found = "The policy holds."
    elif denied:
        found = f"The policy is broken, in {len(denied)} of {len(rules)} rules."
    else:
        return "policy", "Policy", said("p", f"The policy wasn't judged: {' '.join(verdict)}")
    return "policy", "Policy", said("p", found) + table("Each rule with what breaks it", ["line", "rule", "verdict"],
                                                        rows)


def ran(report, texts, words):
    """The run, piece by piece: a table of its lines where it has any, and what it comes to."""
    sums, ends, is_picked, is_begun = traces.Sums(report), [], names.picked(report, words), False
    for line, columns in traces.lines_of(report, texts):
        if line is None:
            ends.append(columns)
            continue
        sums.add(line)
        if is_picked(columns):
            if not is_begun:
                yield '<div class="wide"><table>' + said("caption", "Each step that did something")
                yield tag("thead", row(names.HEAD, head=True)) + "<tbody>"
            is_begun = True
            yield row(columns)
    if is_begun:
        yield "</tbody></table></div>"
    yield items([*ends, *sums.lines()])


def listed(report):
    rows = [(entry["number"], entry["owner"], text(entry), f"{entry['base']:08x}", entry["length"], entry["rights"])
            for entry in report.entries]
    return "entries", "All entries", table("The report's entries, with their first address, length and rights",
                                           ["entry", "owner", "what", "base", "bytes", "rights"], rows)


def plural(name):
    return name.removesuffix("y") + "ies" if name.endswith("y") else name + "s"


def summary(report):
    """What there is of what, in a sentence."""
    counts = [("compartment", report.compartments), ("library", report.libraries), ("device", report.devices),
              ("thread", report.threads), ("entry", report.entries)]
    words = [f"{len(rows)} {name if len(rows) == 1 else plural(name)}" for name, rows in counts]
    return f"{', '.join(words)}; a heap of {report.heap['length']} bytes; a tick each {report.quantum} steps."


def section(key, name, *parts):
    """A section of these parts, piece by piece."""
    yield f'<section id="{key}">' + said("h2", name, id=key + "-heading")
    for part in parts:
        yield from [part] if isinstance(part, str) else part
    yield "</section>"


def page(report, run, rules=None, verdict=None):
    """The page's text, piece by piece; the run is what `ran` gives, or None."""
    sections = [drawn(report), touched(report), used(report)]
    sections += [judged(report, rules, verdict)] if rules is not None else []
    sections += [("run", "A run", run)] if run else []
    sections.append(listed(report))
    contents = tag("nav", tag("ul", "".join(tag("li", said("a", name, href="#" + key)) for key, name, _ in sections)),
                   aria_label="Contents")
    head = ('<meta charset="utf-8"><meta name="viewport" content="width=device-width, initial-scale=1">'
            + said("title", f"Firmware {report.firmware}") + tag("style", STYLE))
    yield from ("<!doctype html>", '<html lang="en">', tag("head", head), "<body>",
                said("h1", f"Firmware {report.firmware}") + said("p", summary(report)), contents, "<main>")
    for part in sections:
        yield from section(*part)
    yield from ("</main>", "</body>", "</html>")


def main(words):
    parser = manners.Words(__doc__)
    parser.add_argument("run")
    parser.add_argument("policy", nargs="?")
    parser.add_argument("verdict", nargs="?")
    parser.add_argument("--only", action="append", default=[])
    options = parser.parse_args(words)
    if options.policy and not options.verdict:
        parser.error("a policy stands with its verdict")
    report, texts = report_read() if options.run == "-" else report_in(options.run)
    first = next(texts, None)
    run = ran(report, itertools.chain([first], texts), options.only) if first is not None else None
    judged_by = [manners.text_in(file).splitlines() for file in (options.policy, options.verdict) if file]
    for piece in page(report, run, *judged_by):
        print(piece)


if __name__ == "__main__":
    manners.run(main)
