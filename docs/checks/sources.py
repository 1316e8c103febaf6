"""What the sources say: crates.txt, the public items of each crate with their clauses, and the written definitions.

The sources are read as `rt fmt` leaves them: an item begins a line, a clause begins a line, a body's brace stands alone
or ends the line of a function without clauses.
"""
import functools
import os
import re

ROOT = os.path.dirname(os.path.dirname(os.path.dirname(os.path.abspath(__file__))))
ITEM = re.compile(r"(?P<indent> *)(?P<public>pub(?:\([^)]*\))? )?(?:unsafe |async |const (?=fn ))*"
                  r"(?P<kind>fn|struct|enum|trait|const|static|type|mod) (?P<name>\w+)")
IMPL = re.compile(r"impl(?:<.*?>)? (?:(?P<of>[\w:]+)(?:<.*>)? for )?(?P<name>\w+)")
CLAUSE = re.compile(r" +(?P<kind>requires|ensures) (?:(?P<label>\w+) )?\{(?P<text>.*)")
USE = re.compile(r"^ *(?:pub )?(?:ghost )?use Rattle\.(?P<module>[\w.]+?)"
                 r"(?:\.\{(?P<names>[^}]*)\}| as (?P<alias>\w+))", re.M)
DEFINITION = re.compile(r"(?:abbrev|unfoldable|opaque|irreducible)? ?pub (?:record |data )?(?P<name>[^\s:(){]+)")
WORD = re.compile(r"[A-Za-z_][\w']*(?:\.[A-Za-z_][\w']*)*|[^\s\w(){}\[\],.;:\"'`]+")


# names that pages make up where they tell how something is added, and names of other projects
EXAMPLES = {"Foo", "ct_NAME", "tests_WHAT", "heap_allocate"}

# the folders whose words pages may use, with the endings of the files
WORDS_OF = {"crates": (".rt", ".antt", ".txt", ".edit", ".json"), "samples": ("",), "tests": ("",),
            "bench": (".py", ".sh", ".rs", ".rt"), "examples": ("",), "bin": ("",), "docs": (".py",)}


def path_of(*parts):
    return os.path.join(ROOT, *parts)


@functools.cache
def text_of(path):
    """The text of a file, whose path counts from the top."""
    with open(path_of(path), encoding="utf-8") as file:
        return file.read()


def write(path, text):
    with open(path_of(path), "w", encoding="utf-8") as file:
        file.write(text)
    text_of.cache_clear()


def files_below(folder, ending):
    """The paths of the files with this ending below a folder, from the top, sorted."""
    found = []
    for place, folders, names in os.walk(path_of(folder)):
        folders[:] = sorted(name for name in folders if name not in ("out", ".git", "__pycache__"))
        found += [os.path.relpath(os.path.join(place, name), ROOT) for name in names if name.endswith(ending)]
    return sorted(found)


class Clause:
    def __init__(self, kind, label, text):
        self.kind, self.label, self.text = kind, label, text


class Item:
    """A function, type, trait or constant of a crate's sources; `path` is its name, behind its type's where it is a
    method."""

    def __init__(self, crate, path, kind, file, line, doc):
        self.crate, self.path, self.kind, self.file, self.line, self.doc = crate, path, kind, file, line, doc
        self.clauses, self.public, self.imports, self.inner = [], False, {}, set()

    def labels(self):
        return [clause.label for clause in self.clauses if clause.label]

    def ensured(self):
        return [clause for clause in self.clauses if clause.kind == "ensures"]


class Definition:
    """A definition of a crate's specs, with the comment that stands over it."""

    def __init__(self, module, name, file, first):
        self.module, self.name, self.file, self.first, self.last, self.lines = module, name, file, first, first, []
        self.own = 0


class Module:
    """A file of definitions: its imports by name, its aliases, its definitions and the members of these."""

    def __init__(self, name, file):
        self.name, self.file = name, file
        self.imports, self.aliases, self.definitions, self.members = {}, {}, {}, {}


class Crate:
    def __init__(self, name, section, uses):
        self.name, self.section, self.uses = name, section, uses
        self.items, self.reexported, self.summary = {}, set(), ""

    def public_items(self):
        return [item for item in self.items.values() if item.public]


def sentence(lines):
    """The first sentence of a comment's lines."""
    text = re.sub(r"\s+", " ", " ".join(lines)).strip()
    end = re.search(r"(?<!\be\.g)(?<!\bi\.e)[.:;](?= [A-Z`*]| *$)", text)
    return (text[:end.start()] if end else text).rstrip(".:;") + "." if text else ""


def read_imports(text):
    """The names that a file imports, each with the module and the name there, and its aliases of modules."""
    names, aliases = {}, {}
    for match in USE.finditer(text):
        if match["alias"]:
            aliases[match["alias"]] = match["module"]
            continue
        for part in match["names"].split(","):
            there, _, here = part.strip().partition(" as ")
            if there:
                names[(here or there).strip()] = (match["module"], there.strip())
    return names, aliases


# ---- the Rust sources

def body_begins(line, indent):
    return line.startswith(indent + "{") or line.rstrip().endswith(("{", "{}", ";"))


def read_clauses(lines, at):
    """The clauses of the function whose line is lines[at]."""
    indent = re.match(" *", lines[at]).group()
    clauses = []
    for k in range(at, len(lines)):
        line = lines[k]
        match = CLAUSE.match(line)
        if match:
            clauses.append(Clause(match["kind"], match["label"], match["text"]))
        elif clauses and not line.startswith(indent + "{"):
            clauses[-1].text += "\n" + line
        if line.startswith(indent + "{"):
            break
        if not clauses and k >= at and body_begins(line, indent) and not line.rstrip().endswith("("):
            break
        if clauses and line.rstrip().endswith("};") and clauses[-1].text.count("}") > clauses[-1].text.count("{"):
            break
    return clauses


def doc_before(lines, at):
    """The lines of the doc comment over lines[at]."""
    doc = []
    k = at - 1
    while k >= 0 and (lines[k].strip().startswith(("///", "#[")) or (doc == [] and lines[k].strip().endswith(")]"))):
        if lines[k].strip().startswith("///"):
            doc.insert(0, lines[k].strip()[3:].strip())
        k -= 1
    return doc[:doc.index("")] if "" in doc else doc


def read_rust(crate, path):
    """Adds a file's items to its crate; returns the modules and the names that it hands on."""
    lines = text_of(path).split("\n")
    imports, aliases = read_imports(text_of(path))
    modules, handed, owner, of_trait, public_owner = {}, set(), None, False, True
    pending = ""
    for at, line in enumerate(lines):
        if line.startswith("pub use ") or pending:
            pending += " " + line.strip()
            if line.rstrip().endswith(";"):
                names = re.search(r"\{(.*)\}", pending)
                listed = names[1].split(",") if names else [re.split(r"::", pending.rstrip("; "))[-1]]
                handed |= {re.split(r"::| as ", name.strip())[-1] for name in listed if name.strip()}
                pending = ""
            continue
        if line.startswith("}"):
            owner = None
        if line.startswith("impl"):
            match = IMPL.match(line)
            if match:
                owner, of_trait, public_owner = match["name"], bool(match["of"]), False
            continue
        match = ITEM.match(line)
        if not match or len(match["indent"]) not in (0, 4) or (match["indent"] and owner is None):
            variant = re.match(r"    (?:pub )?([A-Za-z]\w*)", line)
            if variant and owner in crate.items:
                crate.items[owner].inner.add(variant[1])
            continue
        if match["kind"] == "mod":
            modules[match["name"]] = match["public"] == "pub "
            continue
        inside = owner if match["indent"] else None
        name = f"{inside}::{match['name']}" if inside else match["name"]
        item = Item(crate.name, name, match["kind"], path, at + 1, sentence(doc_before(lines, at)))
        item.imports, item.aliases = imports, aliases
        item.public = match["public"] == "pub " or bool(inside and (of_trait or public_owner))
        if match["kind"] == "fn":
            item.clauses = read_clauses(lines, at)
        if name not in crate.items or not crate.items[name].clauses:
            crate.items[name] = item
        if match["kind"] in ("struct", "enum", "trait") and not line.rstrip().endswith((";", "{}", "}")):
            owner, of_trait, public_owner = match["name"], False, match["kind"] == "trait"
    return modules, handed


def read_sources(crate):
    folder = f"crates/{crate.name}/src"
    shown = {}
    for path in files_below(folder, ".rt"):
        before = set(crate.items)
        modules, handed = read_rust(crate, path)
        here = path[len(folder) + 1:-3].removesuffix("lib").removesuffix("main").rstrip("/")
        shown[here] = (modules, handed, set(crate.items) - before)
    top = shown.get("", ({}, set(), set()))
    crate.reexported = set(top[1])
    visible = set(top[2]) | top[1]
    for name, public in top[0].items():
        inner = shown.get(name, ({}, set(), set()))
        if public:
            visible |= inner[2] | inner[1]
            crate.reexported |= inner[1]
        else:
            visible |= inner[1] & top[1]
    crate.reexported |= {name for name, public in top[0].items() if public}
    for item in crate.items.values():
        owner = item.path.split("::")[0]
        if crate.name.startswith("law_"):
            continue  # a law is read and not called: each that is `pub` counts
        public_type = owner not in crate.items or crate.items[owner].public
        item.public = item.public and owner in visible and public_type
    lib = next((path for path in (f"{folder}/lib.rt", f"{folder}/main.rt") if os.path.exists(path_of(path))), None)
    if lib:
        comment = [line[3:].strip() for line in text_of(lib).split("\n") if line.startswith("//!")]
        crate.summary = sentence(comment)


def derives(lines, at):
    """What the attributes over lines[at] derive."""
    words = set()
    while at > 0 and lines[at - 1].startswith(("#[", "///")):
        at -= 1
        match = re.match(r"#\[derive\((.*)\)\]", lines[at])
        words |= {word.strip() for word in match[1].split(",")} if match else set()
    return words


def check_errors(faults):
    """Each fault and each refusal that a call can answer is an error of thiserror."""
    for path in files_below("crates", ".rt"):
        if not re.match(r"crates/(ct|def)_\w+/src/", path):
            continue
        lines = text_of(path).split("\n")
        for at, line in enumerate(lines):
            match = re.match(r"pub (?:enum|struct) (\w+(?:Fault|Refusal))\b", line)
            if match and "Error" not in derives(lines, at):
                faults.append(f"{path}:{at + 1}: {match[1]} doesn't derive Error")


@functools.cache
def crates():
    """The crates of crates.txt, in its order."""
    found, section = {}, ""
    for line in text_of("crates.txt").split("\n"):
        if line.startswith("#"):
            section = line[1:].strip()
        elif ":" in line:
            name, _, uses = line.partition(":")
            found[name.strip()] = Crate(name.strip(), section, uses.split())
    for crate in found.values():
        read_sources(crate)
    return found


# ---- the definitions

def read_definitions(crate, path):
    """A file of definitions."""
    folder = f"crates/{crate}/specs/"
    name = path[len(folder):-5].replace("/", ".")
    module = Module(f"{crate}.specs.{name}", path)
    text = text_of(path)
    module.imports, module.aliases = read_imports(text)
    text = re.sub(r"^(?:pub )?use [^{\n]*\{[^}]*\}", lambda match: "\n" * match[0].count("\n"), text, flags=re.M)
    current, comment, comment_at = None, [], 0
    for at, line in enumerate(text.split("\n"), 1):
        if line.startswith("--"):
            comment_at, current = (at if not comment else comment_at), None
            comment.append(line)
            continue
        if not line.strip():
            comment = []
            continue
        if line.startswith("use ") or line.startswith("pub use ") or line.startswith("pub mod "):
            comment = []
            continue
        match = DEFINITION.match(line) if not line[0].isspace() else None
        if not match and not line[0].isspace() and re.match(r"(?:abbrev |unfoldable )(\S+)", line):
            match = re.match(r"(?:abbrev |unfoldable )(?P<name>\S+)", line)
        if match and match["name"] not in module.definitions:
            current = Definition(module, match["name"], path, comment_at if comment else at)
            current.lines += comment
            module.definitions[match["name"]] = current
        comment = []
        if current is None:
            continue
        current.last = at
        current.own += 1
        current.lines.append(line)
        member = re.match(r"\s+(?:pub )?([A-Za-z_][\w']*)\s*:", line)
        if member:
            module.members.setdefault(member[1], current.name)
    return module


@functools.cache
def modules():
    """Every module of definitions, by its name CRATE.specs.MODULE."""
    found = {}
    for crate in crates():
        for path in files_below(f"crates/{crate}/specs", ".antt"):
            if not path.endswith("/Lib.antt") or "pub mod" not in text_of(path):
                module = read_definitions(crate, path)
                found[module.name] = module
    return found


def definitions_of(crate):
    """The names of a crate's definitions, each with its modules."""
    found = {}
    for module in modules().values():
        if module.name.startswith(crate + ".specs."):
            for name in module.definitions:
                found.setdefault(name, []).append(module)
    return found


def names_of(crate):
    """Every name that `CRATE::name` may mean: a public item, what a crate hands on, a definition."""
    here = crates()[crate]
    names = {item.path for item in here.public_items()} | here.reexported | set(definitions_of(crate))
    for item in here.public_items():
        names |= {f"{item.path}::{name}" for name in item.inner}
    return names


@functools.cache
def all_words():
    """Every word of the sources, of scripts and of samples' files, and the names of wrong bodies and of tables."""
    words = set()
    for folder, endings in WORDS_OF.items():
        if os.path.isdir(path_of(folder)):
            for path in files_below(folder, endings):
                words |= set(re.findall(r"\w+", text_of(path))) | set(re.findall(r"\w+", os.path.basename(path)))
                words.add(os.path.basename(path).partition(".")[0])
    return words | set(crates()) | set(os.listdir(ROOT)) | EXAMPLES


more_words = set()


def names_anywhere(name):
    return name in all_words() or name in more_words
