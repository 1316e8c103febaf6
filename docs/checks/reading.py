"""What must be read to believe a clause: all definitions below it, by names, in reading order."""
import collections
import functools
import re

from . import sources

TOP = "ct_top"
CALL = "capfw"
ORDER = ("written", "licensed", "safe", "answer", "decided")
PARTS = (
    ("each deed is licensed", "AllLicensed"), ("the invariant of every run", "Confined.Confined"),
    ("the written machine", "happens"), ("what an image boots", "booted_machine"), ("bytes are an image", "IsImage"),
    ("bytes are a description", "WellFormed"), ("what sources are linked to", "def_link.linked"),
    ("the report's line", "report_line"), ("what denies a policy", "AllDenied"),
)


class Cited:
    """What a walk met: definitions in the order in which they were met, and plain types and numbers of Rust."""

    def __init__(self):
        self.definitions, self.plain, self.kit, self.depth = {}, set(), set(), {}

    def lines(self):
        return sum(definition.own for definition in self.definitions.values())

    def files(self):
        return {definition.file for definition in self.definitions.values()}

    def crates(self):
        return {file.split("/")[1] for file in self.files()}

    def tables(self):
        """The crates of definitions whose types and tables of Rust are named."""
        return sorted({module.split(".")[0] for module, _ in self.plain})

    def table_lines(self):
        return sum(len(lines_of_table(crate)) for crate in self.tables())


@functools.cache
def lines_of_table(crate):
    """The lines of a crate's Rust, without comments and blank lines."""
    return [line.strip() for path in sources.files_below(f"crates/{crate}/src", ".rt")
            for line in sources.text_of(path).split("\n")
            if line.strip() and not line.strip().startswith(("//", "#![", "use ", "pub use ", "ghost use "))]


def heads(text):
    """The names that a text uses, each with what follows its first dot."""
    for word in set(sources.WORD.findall(re.sub(r"--.*", "", text))):
        head, _, rest = word.partition(".")
        yield head, rest.split(".")[0]


def meet(cited, module, name):
    """Adds what a module's name means to what was met, and all below it, the nearest first."""
    pending = collections.deque([(module, name, 0)])
    while pending:
        module, name, depth = pending.popleft()
        here = sources.modules().get(module)
        if here is None:
            if module.split(".")[0] in sources.crates():
                cited.plain.add((module, name))
            else:
                cited.kit.add((module, name))
            continue
        if name in here.imports and name not in here.definitions:
            pending.append((*here.imports[name], depth))
            continue
        name = name if name in here.definitions else here.members.get(name, name)
        if name not in here.definitions or cited.depth.get((module, name), depth + 1) <= depth:
            continue
        definition = here.definitions[name]
        cited.definitions[module, name] = definition
        cited.depth[module, name] = depth
        pending.extend((*each, depth + 1) for each in used(here, "\n".join(definition.lines), name))


def used(here, text, own=None):
    """What the names of a text mean that stands in this module, or in a file with these imports."""
    found = []
    definitions = getattr(here, "definitions", {})
    members = getattr(here, "members", {})
    bound = set(re.findall(r"^ +(?:pub )?([A-Za-z_][\w']*) *:", text, re.M))
    bound |= {name for names in re.findall(r"[({λ]([\w' ]+?)(?: :|\.)", text) for name in names.split()}
    signs = {piece: name for name in here.imports for piece in name.split("◌") if piece and "◌" in name}
    signs.update({piece: name for name in definitions for piece in name.split("◌") if piece and "◌" in name})
    for head, after in heads(text):
        head = signs.get(head, head)
        if head in here.aliases and after:
            found.append((here.aliases[head], after))
        elif head in here.imports:
            found.append(here.imports[head])
        elif head in definitions and head != own:
            found.append((here.name, head))
        elif head in members and members[head] != own and head not in bound:
            found.append((here.name, members[head]))
    return sorted(found)


def below_clause(item, clause):
    cited = Cited()
    for module, name in used(item, clause.text):
        meet(cited, module, name)
    return cited


def below_name(name):
    """All below a clause of the top call, or else below every definition of this name, which may be written
    CRATE.Module.name or name alone."""
    for label, cited in top_clauses():
        if label == name:
            return cited
    cited = Cited()
    wanted = name.replace("::", ".").split(".")
    for module in sources.modules().values():
        parts = module.name.split(".")
        if wanted[-1] in module.definitions and all(part in parts for part in wanted[:-1]):
            meet(cited, module.name, wanted[-1])
    return cited


@functools.cache
def top_clauses():
    """The clauses of the top call with all below them, in reading order."""
    item = sources.crates()[TOP].items[CALL]
    by_label = {clause.label: clause for clause in item.ensured()}
    labels = [label for label in ORDER if label in by_label] + [label for label in by_label if label not in ORDER]
    return [(label, below_clause(item, by_label[label])) for label in labels]


@functools.cache
def all_below():
    whole = Cited()
    for _, cited in top_clauses():
        whole.definitions.update(cited.definitions)
        for key, depth in cited.depth.items():
            whole.depth[key] = min(whole.depth.get(key, depth), depth)
        whole.plain |= cited.plain
        whole.kit |= cited.kit
    return whole


def in_order(cited):
    """Files with their definitions: those that the clause itself names first, then what these name, and so on."""
    order = {name: k for k, name in enumerate(sources.crates())}
    by_file, near = collections.defaultdict(list), {}
    for key, definition in cited.definitions.items():
        by_file[definition.file].append(definition)
        near[definition.file] = min(near.get(definition.file, cited.depth[key]), cited.depth[key])
    found = sorted(by_file, key=lambda file: (near[file], -order[file.split("/")[1]], file))
    return [(file, sorted(by_file[file], key=lambda each: each.first)) for file in found]
