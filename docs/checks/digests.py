"""Digests: a short hash of each list that a claim rests on, so that a change of what must be believed shows on a page."""
import hashlib
import re

from . import counts, lists, reading, sources, surface

PAGE = "docs/claims/reading.md"
LENGTH = 12


def digest(lines):
    return hashlib.sha256("\n".join(lines).encode()).hexdigest()[:LENGTH]


def bare(text):
    """A definition's text, without comments and the breaks of lines."""
    return re.sub(r"\s+", " ", re.sub(r"(?m)--.*$", "", text)).strip()


def lines_of(cited):
    """What stands below a clause: each definition's text, and the types and tables of Rust."""
    definitions = [f"{module}.{name}: {bare(chr(10).join(each.lines))}"
                   for (module, name), each in sorted(cited.definitions.items())]
    return definitions + [line for crate in cited.tables() for line in reading.lines_of_table(crate)]


def of_clause(label, cited):
    item = sources.crates()[reading.TOP].items[reading.CALL]
    text = next(clause.text for clause in item.ensured() if clause.label == label)
    return digest([bare(text), *lines_of(cited)])


def contracts(prefix):
    """The public calls of a family with their clauses: how many, and the digest."""
    found = [(f"{crate}::{item.path}", item) for crate in sources.crates() if crate.startswith(prefix)
             for item in lists.calls_with_contracts(crate)]
    return len(found), digest([f"{name} {clause.kind} {clause.label} {bare(clause.text)}"
                               for name, item in sorted(found, key=lambda each: each[0]) for clause in item.clauses])


def row(name, cited, hashed):
    numbers = (len(cited.definitions), cited.lines(), len(cited.files()), len(cited.crates()), cited.table_lines())
    return f"| {name} | {' | '.join(counts.number(each) for each in numbers)} | `{hashed}` |"


def table():
    rows = ["| below | definitions | lines | files | crates | lines of Rust | digest |", "|---|---|---|---|---|---|---|"]
    rows += [row(f"clause `{label}`", cited, of_clause(label, cited)) for label, cited in reading.top_clauses()]
    whole = reading.all_below()
    rows.append(row(f"**all of `{reading.CALL}`**", whole, digest(lines_of(whole))))
    rows += [row(f"{text}: `{name.split('.')[-1]}`", cited, digest(lines_of(cited)))
             for text, name in reading.PARTS for cited in [reading.below_name(name)]]
    rows += ["", "| list | how many | digest |", "|---|---|---|"]
    for text, prefix in (("clauses of public calls, `--contracts CRATE` of each `ct_` crate", "ct_"),
                         ("laws, `--contracts CRATE` of each `law_` crate", "law_")):
        many, hashed = contracts(prefix)
        rows.append(f"| {text} | {counts.number(many)} | `{hashed}` |")
    shown = surface.surface()
    rows.append(f"| the public surface, `--surface` | {counts.number(shown.count('| `'))} | `{digest([shown])}` |")
    return "\n".join(rows) + "\n"
