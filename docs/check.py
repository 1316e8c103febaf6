#!/usr/bin/env python3
"""Holds the pages to the sources: what a page names is there, what it counts is so, what is made is as made.

    docs/check.py                     compares; status 1 where something isn't so, with place and reason
    docs/check.py --write             makes the made parts, pictures and counted numbers anew first, digests apart
    docs/check.py --digests           makes the digests anew: what must be believed has changed, and was read again
    docs/check.py --below NAME        the definitions below a clause of capfw or a definition, the nearest first
    docs/check.py --contracts CRATE   the public calls or laws of a crate: clauses, what they say, where they are claimed
    docs/check.py --surface [CRATE]   the calls and types that crates are there for, as the sources have them
    docs/check.py --rooms             the crates by section, with what each says of itself
    docs/check.py --recipes           compares the recipes alone, and says how many files each has

No program and no proof is looked at, only files. checks/ has what is looked at, by subject.
"""
import os
import re
import sys

sys.dont_write_bytecode = True
sys.path.insert(0, os.path.dirname(os.path.abspath(__file__)))
from checks import (blocks, counts, lists, marks, pages, pictures, places, reading, recipes, sources,  # noqa: E402
                    surface)

MOST_WORDS = {"README.md": 1500}
MOST_OF_ALL = 50000
MOST_LINES = 800
MOST_COLUMNS = 100


def check_crates(faults):
    """crates.txt has each crate that is there, once, and names none above its line; each says what it is."""
    names = [line.partition(":")[0].strip() for line in sources.text_of("crates.txt").split("\n")
             if ":" in line and not line.startswith("#")]
    there = sorted(name for name in os.listdir(sources.path_of("crates")) if os.path.isdir(
        sources.path_of("crates", name, "src")))
    faults += [f"crates.txt: {name} stands there twice" for name in sorted(set(names)) if names.count(name) > 1]
    faults += [f"crates.txt: {name} is missing" for name in there if name not in names]
    faults += [f"crates.txt: there is no crates/{name}" for name in names if name not in there]
    for place, name in enumerate(names):
        for use in sources.crates()[name].uses:
            if use in names[place:]:
                faults.append(f"crates.txt: {name} names {use}, which comes later")
        if not sources.crates()[name].summary:
            faults.append(f"crates/{name}/src: no first sentence says what the crate is")


def check_rooms(faults):
    """What a claim of the top call means stands in crates of definitions alone."""
    by_file = {}
    for definition in blocks.outside():
        by_file.setdefault(definition.file, []).append(definition.name)
    for file, names in sorted(by_file.items()):
        faults.append(f"{file}: in no crate of definitions, and {reading.CALL} means {', '.join(sorted(names))}")


def check_proofs(faults):
    """No axiom is taken, and no term is missing; the compiler of the logic refuses both too."""
    for path in sources.files_below("crates", ".antt"):
        for number, line in enumerate(sources.text_of(path).split("\n"), 1):
            bare = line.partition("--")[0]
            if re.match(r"\s*axiom\b", bare) or re.search(r"(^|[\s(])\?([\s)]|$)", bare):
                faults.append(f"{path}:{number}: an axiom or a hole")


def check_sizes(faults):
    """No page and no script is longer than somebody reads."""
    words = {path: len(sources.text_of(path).split()) for path in pages.pages()}
    faults += [f"{path}: {words[path]} words, of fewer than {most}"
               for path, most in MOST_WORDS.items() if words[path] >= most]
    whole = sum(count for path, count in words.items() if path.startswith("docs/") or path == "README.md")
    if whole > MOST_OF_ALL:
        faults.append(f"docs: {whole} words with the README, of at most {MOST_OF_ALL}")
    for path in sources.files_below("docs", ".py"):
        if sources.text_of(path).count("\n") >= MOST_LINES:
            faults.append(f"{path}: {MOST_LINES} lines and more")


def check_columns(faults):
    """A clause fits a page: comments, imports, attributes and texts of tests apart, no line of a source is wider."""
    for path in sources.files_below("crates", ".rt"):
        if path.startswith("crates/tests_"):
            continue
        for number, line in enumerate(sources.text_of(path).split("\n"), 1):
            if len(line) > MOST_COLUMNS and not line.lstrip().startswith(("//", "#", "ghost use ", "pub ghost use ")):
                faults.append(f"{path}:{number}: {len(line)} columns, of at most {MOST_COLUMNS}")


def check_parts(faults):
    """Each definition whose size and digest are told by name is there."""
    for text, name in reading.PARTS:
        if not reading.below_name(name).definitions:
            faults.append(f"docs/checks/reading.py: there is no {name} ({text})")


def all_faults(wanted):
    """What isn't so, after the made parts whose names are wanted were written."""
    faults = []
    check_crates(faults)
    if faults:
        return faults
    writes = wanted("everything else")
    counts.check_numbers(faults, writes)
    pictures.check_pictures(faults, writes)
    for path in pages.pages():
        blocks.write(path, wanted)
        blocks.check_made(path, faults)
    sources.more_words.update(counts.row_names())
    for path in pages.pages():
        pages.check_page(path, faults)
    for path in marks.PAGES:
        pages.check_calls(path, faults)
    for check in (marks.check_told, check_rooms, check_proofs, check_sizes, check_columns, check_parts,
                  places.check_places, sources.check_errors, surface.check_surface, recipes.check_recipes,
                  pages.check_cited, pages.check_read):
        check(faults)
    for name, rows in counts.tables().items():
        if not rows:
            faults.append(f"{counts.table_places()[name]}: writes no row")
    return faults


def show(words):
    """What was asked for by name; None where nothing was."""
    crates = sources.crates()
    if words[:1] == ["--below"] and len(words) == 2:
        return lists.below(words[1]) or None
    if words[:1] == ["--contracts"] and len(words) == 2 and words[1] in crates:
        return lists.contracts(words[1])
    if words[:1] == ["--surface"] and len(words) < 3 and set(words[1:]) <= set(surface.SURFACE):
        return lists.public_surface(*words[1:])
    return lists.rooms() if words == ["--rooms"] else None


def main(words):
    shown = show(words)
    if shown is not None:
        print(shown)
        return 0
    if words == ["--recipes"]:
        faults = []
        for name, listed, apart in recipes.check_recipes(faults):
            print(f"recipe by {name}: {listed} files that name it, {apart} that don't")
    elif words in ([], ["--write"], ["--digests"]):
        made = {"--write": lambda name: name != blocks.DIGESTS, "--digests": lambda name: name == blocks.DIGESTS}
        faults = all_faults(made.get("".join(words), lambda name: False))
    else:
        print(__doc__)
        return 2
    for fault in faults:
        print(f"docs: {fault}")
    print(f"docs: {len(pages.pages())} pages, {len(faults)} faults")
    return 1 if faults else 0


if __name__ == "__main__":
    sys.exit(main(sys.argv[1:]))
