"""Where definitions stand: of a law's crate, specs/ holds the samples that its clauses name, and nothing else.

A word of a claim (a statement, a record, a kind of values) stands in a crate of definitions, and what proofs alone use in
proofs/. So the place of a definition says who must read it.
"""
import re

from . import reading, sources

def is_word(definition):
    """Whether a definition is no value: a record, a kind of values, or what gives a type."""
    first, *rest = [line for line in definition.lines if not line.startswith("--")]
    if re.search(r"\b(record|data) " + re.escape(definition.name) + r"(?!\S)", first):
        return True
    said = [first.partition(" : ")[2]]
    for line in rest:
        if not line[0].isspace():
            break
        said.append(line.strip())
    return bool(re.search(r"\bType \d+$", " ".join(said).strip()))


def meant_by(crate):
    """The definitions of a crate that its public clauses mean, each by its module and its name."""
    found = set()
    pending = [each for item in crate.public_items() for clause in item.clauses
               for each in reading.used(item, clause.text)]
    while pending:
        module, name = pending.pop()
        here = sources.modules().get(module)
        if here is None or not module.startswith(f"{crate.name}.") or (module, name) in found:
            continue
        if name in here.imports and name not in here.definitions:
            pending.append(here.imports[name])
        elif name in here.definitions:
            found.add((module, name))
            pending += reading.used(here, "\n".join(here.definitions[name].lines), name)
    return found


def check_places(faults):
    """Each definition of a law's crate is a value that a public clause of the crate means; in src/ stand functions."""
    for crate in sources.crates().values():
        if not crate.name.startswith("law_"):
            continue
        faults += [f"{item.file}:{item.line}: {item.path} is a {item.kind} in a crate of laws"
                   for item in crate.items.values() if item.kind not in ("fn", "mod")]
        meant = meant_by(crate)
        for module in sources.modules().values():
            if not module.name.startswith(f"{crate.name}."):
                continue
            for name, definition in module.definitions.items():
                place = f"{definition.file}:{definition.first}: {name}"
                if is_word(definition):
                    faults.append(f"{place} is no sample: of a claim it belongs in a crate of definitions")
                elif (module.name, name) not in meant:
                    faults.append(f"{place} is meant by no clause of {crate.name}: it belongs in proofs/")
