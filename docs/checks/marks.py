"""Which public laws and calls no page claims, and why: each is named on a page of claims, or marked here.

The pages are written by people: a call counts as told where a *Call* bullet, or a table of calls, names it. A mark says
what a law is that is no claim of its own. A new law or call is a fault until somebody decides which it is.
"""
from . import marked, pages, sources

PAGES = ("docs/claims/claims.md", "docs/claims/laws.md")
KINDS = {
    "instance": "computed of samples: it shows that a definition says what it is meant to say",
    "table": "states constants, a table or a small definition once more, by values or in other words",
    "part": "a law that other laws stand on; what it leads to is told",
    "inner": "a call for the crates above it; what these say is told",
}


def told():
    """Each call that a page names, with that page."""
    found = {}
    for path in PAGES:
        for name in sorted(pages.named_calls(path) | pages.calls_in_tables(path)):
            found.setdefault(name, path)
    return found


def kind_of(crate, path):
    """The mark of a call, or None."""
    for kind, names in marked.MARKED.get(crate, {}).items():
        if path in names.split():
            return kind
    return None


def check_told(faults):
    """Each public law and call is on a page of claims, or has one mark; no mark is of what isn't there or is told."""
    named = told()
    for crate in sources.crates().values():
        if not crate.name.startswith(("ct_", "law_")):
            continue
        there = {item.path: item for item in crate.public_items() if item.kind == "fn" and item.clauses}
        for path, item in there.items():
            if f"{crate.name}::{path}" not in named and not kind_of(crate.name, path):
                faults.append(f"{item.file}:{item.line}: {crate.name}::{path} is claimed on neither of "
                              f"{' and '.join(PAGES)}, and has no mark in docs/checks/marked.py")
        for kind, names in marked.MARKED.get(crate.name, {}).items():
            if kind not in KINDS:
                faults.append(f"docs/checks/marked.py: there is no mark {kind}")
            for path in names.split():
                if path not in there:
                    faults.append(f"docs/checks/marked.py: {crate.name} has no public {path} with a contract")
                elif f"{crate.name}::{path}" in named:
                    faults.append(f"docs/checks/marked.py: {crate.name}::{path} is marked, and told on "
                                  f"{named[f'{crate.name}::{path}']}")
                elif sum(path in each.split() for each in marked.MARKED[crate.name].values()) > 1:
                    faults.append(f"docs/checks/marked.py: {crate.name}::{path} has two marks")
    for crate in marked.MARKED:
        if crate not in sources.crates():
            faults.append(f"docs/checks/marked.py: there is no crate {crate}")
