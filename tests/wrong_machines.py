#!/usr/bin/env python3
"""Plants wrong machines in copies of the definitions, one at a time, and says which law refuses each.

    tests/wrong_machines.py [--tree TREE] [--only NAME ..] [--list] [--climb] [--loud]

For who changes a law or a definition, run by hand. TREE, by default the repository that this stands in, is one whose
libraries of definitions and laws are built and up to date (crates/NAME/out/rlib, which `rt ci` leaves). All work is done
in a copy under a temporary folder; TREE stays as it is.

A machine (tests/wrong/*.py) is one or few changed lines of the definitions, the crate of laws that must refuse it, the
public law and the clause. Its crate of definitions is built anew, then the law's crate is checked over the libraries
of the laws below it as they were: so what fails there is the law's own proof, even where all laws below are granted.
Where a proof can't be reached because what it rests on changed, nothing is said that way; with --climb every crate in
between is built anew then, lowest first, up to the one that fails, and the line names the lemma in which it fails.

A failing proof says that the law as it stands doesn't follow any more. That the clause is false of the wrong machine is
what the table says, and what its reader judges.

A line a machine: refused; refused by another law than the table names; refused below, by a proof in a lower crate, on
which the law stands; undecided; NOT REFUSED; or BROKEN, where the change is no definition. The last line counts. Exit
status: 0 when each is refused, or is one that by the table no law refuses; 1 else; 2 when called wrongly. On free
processors a machine takes some 40 seconds, one that climbs up to 4 minutes.
"""
import argparse
import importlib
import shutil
import sys
import tempfile
import time
from pathlib import Path

HERE = Path(__file__).resolve().parent
sys.path.insert(0, str(HERE / "wrong"))

from copies import Copy, below, crates_of, failures, refused  # noqa: E402

FILES = ["deeds", "accesses", "instructions", "calls", "handlers", "heap", "tokens", "turns", "boot"]


def machines():
    return [m for name in FILES for m in importlib.import_module(name).MACHINES]


def edited(copy, machine):
    """Puts the machine into the copy; the crates whose files changed."""
    touched = set()
    for path, old, new in machine.edits:
        file = copy.room / "crates" / path
        text = file.read_text()
        if text.count(old) != 1:
            raise ValueError(f"{path}: the text to change stands there {text.count(old)} times: {old[:60]!r}")
        file.write_text(text.replace(old, new))
        touched.add(path.split("/")[0])
    return touched


def judged(copy, machine, climb, loud):
    """The verdict on a machine, and how it comes about."""
    touched = sorted(edited(copy, machine), key=copy.order.index)
    built = []
    try:
        for name in touched:
            built.append(name)
            proved, text = copy.run("build", name)
            if not proved:
                return "BROKEN", f"{name} isn't a definition any more: {(failures(text) or [text[-300:]])[0]}"
        proved, text = copy.run("check", machine.crate)
        if loud:
            print(text, file=sys.stderr)
        if failures(text):
            return refused(machine, text)
        if proved:
            return "NOT REFUSED", "the crate is proved"
        if not climb:
            return "undecided", "what the law rests on changed: --climb goes on"
        for name in copy.order:
            under = below(copy.uses, name)
            if name in touched or name not in below(copy.uses, machine.crate) or not under & set(touched):
                continue
            built.append(name)
            proved, text = copy.run("build", name)
            if not proved:
                return "refused below", f"the proof of {(failures(text) or [text[-200:]])[0]} in {name} fails"
        proved, text = copy.run("check", machine.crate)
        return ("NOT REFUSED", "the crate is proved") if proved else refused(machine, text)
    finally:
        for path, old, new in machine.edits:
            shutil.copy(copy.tree / "crates" / path, copy.room / "crates" / path)
        for name in built:
            copy.restore(name)


def main():
    parser = argparse.ArgumentParser(description=__doc__, formatter_class=argparse.RawDescriptionHelpFormatter)
    parser.add_argument("--tree", type=Path, default=HERE.parent, help="a repository whose laws are built")
    parser.add_argument("--only", nargs="+", metavar="NAME", help="these machines alone")
    parser.add_argument("--list", action="store_true", help="only say what the machines are")
    parser.add_argument("--climb", action="store_true", help="build the crates in between where that is needed")
    parser.add_argument("--loud", action="store_true", help="what each check says, too")
    given = parser.parse_args()
    table = machines()
    unknown = set(given.only or []) - {m.name for m in table}
    if unknown:
        parser.error("no machine is called " + ", ".join(sorted(unknown)))
    table = [m for m in table if not given.only or m.name in given.only]
    if given.list:
        for m in table:
            print(f"{m.name}: {m.what} | {m.crate}::{m.law}, {m.clause}" if m.crate
                  else f"{m.name}: {m.what} | no law: {m.clause}")
        return 0
    counts, wrong = {}, 0
    uses = crates_of(given.tree.resolve())
    checked = {m.crate for m in table if m.crate} | {p.split("/")[0] for m in table for p, old, new in m.edits}
    wanted = checked | {n for name in checked for n in below(uses, name)}
    with tempfile.TemporaryDirectory() as room:
        copy = Copy(given.tree.resolve(), Path(room), wanted, wanted if given.climb else checked)
        for m in table:
            start = time.time()
            verdict, why = judged(copy, m, given.climb, given.loud) if m.crate else ("no law", m.clause)
            kind = "refused by another law" if verdict.startswith("refused by") else verdict
            counts[kind] = counts.get(kind, 0) + 1
            wrong += not verdict.startswith(("refused", "no law"))
            by = f"{m.crate}::{m.law}, {m.clause}: " if m.crate else ""
            print(f"{m.name}: {verdict}: {by}{why} ({time.time() - start:.0f} s)", flush=True)
    all_refused = sum(n for verdict, n in counts.items() if verdict.startswith("refused"))
    print(f"{all_refused} of {len(table)} refused: "
          + ", ".join(f"{n} {verdict}" for verdict, n in sorted(counts.items())))
    return 1 if wrong else 0


if __name__ == "__main__":
    try:
        sys.exit(main())
    except (ValueError, OSError) as e:
        sys.exit(f"wrong_machines.py: {e}")
    except KeyboardInterrupt:
        sys.exit(130)
