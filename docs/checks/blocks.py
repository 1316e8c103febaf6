"""The parts of pages that are made from the sources: what stands between `<!-- made: NAME -->` and `<!-- end -->`."""
import re

from . import counts, digests, lists, reading, sources

BLOCK = re.compile(r"(<!-- made: ([\w .]+) -->\n)(.*?)(<!-- end -->)", re.S)
DIGESTS = "digests"


def outside():
    """The definitions of the top call that stand in no crate of definitions."""
    return [definition for definition in reading.all_below().definitions.values()
            if not definition.file.split("/")[1].startswith(("def_", "ct_entry"))]


def indented(text):
    lines = text.rstrip().split("\n")
    least = min(len(line) - len(line.lstrip()) for line in lines if line.strip())
    return "\n" + "\n".join(("    " + line[least:]).rstrip() for line in lines) + "\n\n"


def clause(label):
    """A clause of the top call, as it stands in the source."""
    item = sources.crates()[reading.TOP].items[reading.CALL]
    found = next((each for each in item.ensured() if each.label == label), None)
    return indented(f"    ensures {label} {{{found.text}") if found else "\nThere is no such clause.\n\n"


def definition(name):
    """A definition, as it stands in its file, without its comment."""
    *place, last = name.split(".")
    for module in sources.modules().values():
        if last in module.definitions and all(part in module.name.split(".") for part in place):
            lines = [line for line in module.definitions[last].lines if not line.startswith("--")]
            return indented("\n".join(lines))
    return "\nThere is no such definition.\n\n"


def tables():
    """The tables of rows, each with how many it has."""
    found, places = counts.tables(), counts.table_places()
    listed = ", ".join(f"`{path}` {counts.number(len(found[name]))}" for name, path in places.items())
    return lists.wrapped(f"{counts.number(sum(len(each) for each in found.values()))} rows: {listed}.") + "\n"


def edits():
    """How many wrong bodies and tests there are."""
    bodies, tests = counts.edits(), counts.tests()
    listed = ", ".join(f"{count} in `{crate}`" for crate, count in tests.items())
    return lists.wrapped(f"{sum(len(each) for each in bodies.values())} wrong bodies stand beside {len(bodies)} crates, "
                         f"and {sum(tests.values())} tests in crates of tests: {listed}.") + "\n"


MADE = {DIGESTS: digests.table, "tables": tables, "edits": edits}


def make(name):
    """What stands in the part of this name; None where there is no such part."""
    first, _, rest = name.partition(" ")
    if rest and first in ("clause", "definition"):
        return {"clause": clause, "definition": definition}[first](rest)
    return MADE[name]() if name in MADE else None


def made(path, wanted):
    """The page as it is to be, of the parts whose names are wanted."""
    return BLOCK.sub(lambda match: match[1] + (wanted(match[2]) and make(match[2]) or match[3]) + match[4],
                     sources.text_of(path))


def write(path, wanted):
    text = made(path, wanted)
    if text != sources.text_of(path):
        sources.write(path, text)


def check_made(path, faults):
    text, due_text = sources.text_of(path), made(path, lambda name: True)
    for match in BLOCK.finditer(text):
        made_now = make(match[2])
        if made_now is None or made_now.startswith("\nThere is no such"):
            faults.append(f"{path}: nothing is made as {match[2]}")
    if text == due_text:
        return
    before, after = text.split("\n"), due_text.split("\n")
    at = next((k for k, pair in enumerate(zip(before, after)) if pair[0] != pair[1]), min(len(before), len(after)))
    here = before[at] if at < len(before) else "nothing"
    due = after[at] if at < len(after) else "nothing"
    how = "--digests" if path == digests.PAGE and "digest" in make_name_at(text, at) else "--write"
    faults.append(f"{path}:{at + 1}: not as the sources make it (docs/check.py {how} does)\n"
                  f"    here: {here[:110]}\n    due:  {due[:110]}")


def make_name_at(text, at):
    """The name of the made part in which a line stands."""
    begun = [match for match in re.finditer(r"<!-- made: ([\w .]+) -->", text) if text.count("\n", 0, match.start()) <= at]
    return begun[-1][1] if begun else ""
