"""What the pages say, held to the sources: links and anchors, paths, calls, clauses, definitions, widths."""
import functools
import os
import re

from . import sources

WIDTH = 120
CRATE = re.compile(r"\b((?:ct|law|def|tests|bench|run)_\w+)")
CITED = re.compile(r"\b((?:ct|law|def|tests|bench|run)_[a-z_]+)::([A-Za-z]\w*(?:::[A-Za-z]\w*)*)")
LABELS = re.compile(r"`((?:ct|law)_\w+::[\w:]+)`(?:,| of (?:one|which))? *(?:\(((?:`\w+`(?:, | and )?)+)[;:)]|"
                    r": ((?:`\w+`(?:, | and )?)+)(?=[ |;.,)]|$)|clauses? ((?:`\w+`(?:, | and )?)+))")
ENDINGS = ("rt", "antt", "py", "sh", "edit", "json", "md", "s", "txt", "policy", "script", "svg", "dot")


def pages():
    """Every page, by its path: those of docs, the README and the others at the top."""
    top = [name for name in sorted(os.listdir(sources.ROOT)) if name.endswith(".md")]
    return top + sources.files_below("docs", ".md")


def line_of(text, at):
    return text.count("\n", 0, at) + 1


def prose(text):
    """The text without its blocks of code, line for line."""
    kept, fenced = [], False
    for line in text.split("\n"):
        if line.startswith("```"):
            fenced = not fenced
            line = ""
        kept.append("" if fenced or line.startswith("    ") else line)
    return "\n".join(kept)


# ---- links

def anchor_of(heading):
    """The anchor of a heading, as forges make it."""
    plain = re.sub(r"\[([^\]]*)\](\([^)]*\))?", r"\1", heading.strip())
    return re.sub(r"[^\w\- ]", "", plain.lower()).replace(" ", "-")


def anchors(path):
    found, seen = set(), {}
    for line in prose(sources.text_of(path)).split("\n"):
        if line.startswith("#"):
            anchor = anchor_of(line.lstrip("#"))
            seen[anchor] = seen.get(anchor, -1) + 1
            found.add(anchor if not seen[anchor] else f"{anchor}-{seen[anchor]}")
    return found


def check_links(path, faults):
    text = prose(sources.text_of(path))
    folder = os.path.dirname(path)
    targets = [(match.start(), match[1]) for match in re.finditer(r"\]\(([^)\s]+)\)", text)]
    named = {match[1]: match[2] for match in re.finditer(r"^\[([^\]]+)\]: (\S+)$", text, re.M)}
    targets += [(match.start(), match[2]) for match in re.finditer(r"^\[([^\]]+)\]: (\S+)$", text, re.M)]
    used = {name.replace("\n", " ") for pair in re.findall(r"\[([^\]\[`]+)\](?:\[([^\]]*)\])?(?![(:\w])", text)
            for name in (pair[1] or pair[0],)}
    faults += [f"{path}: [{name}] is linked nowhere" for name in sorted(set(named) - used)]
    if named:
        faults += [f"{path}: [{name}] has no link"
                   for name in sorted(used - set(named)) if re.fullmatch(r"[a-z ]+", name)]
    for at, target in targets:
        if re.match(r"[a-z]+:", target):
            continue
        place, _, anchor = target.partition("#")
        file = os.path.normpath(os.path.join(folder, place)) if place else path
        where = f"{path}:{line_of(text, at)}"
        if not os.path.exists(sources.path_of(file)):
            faults.append(f"{where}: the link {target} leads nowhere")
        elif anchor and file.endswith(".md") and anchor not in anchors(file):
            faults.append(f"{where}: {file} has no heading #{anchor}")


def check_paths(path, faults):
    """Each path in backticks is there, counted from the top or from the page's folder."""
    text = sources.text_of(path)
    folder = os.path.dirname(path)
    known = set(os.listdir(sources.ROOT))
    for match in re.finditer(r"`((?:[\w.-]+/)+[\w.-]*)(?::\d+)?`", text):
        named = match[1]
        if named.split("/")[0] not in known and not named.endswith(tuple("." + ending for ending in ENDINGS)):
            continue
        if re.search(r"NAME|/out/|^out/|FOLDER", named) or named[0] == "." and named.split("/")[0] not in known:
            continue
        places = (named, os.path.join(folder, named), os.path.join("crates", named))
        if not any(os.path.exists(sources.path_of(place)) for place in places):
            faults.append(f"{path}:{line_of(text, match.start())}: there is no {named}")


def check_widths(path, faults):
    for number, line in enumerate(prose(sources.text_of(path)).split("\n"), 1):
        if len(line) > WIDTH and not line.startswith("|"):
            faults.append(f"{path}:{number}: {len(line)} columns, of at most {WIDTH}")


# ---- names of the sources

def labels_of(call):
    crate, _, item = call.partition("::")
    if crate not in sources.crates():
        return None
    found = sources.crates()[crate].items.get(item)
    return found.labels() if found else None


def check_names(path, faults):
    """Each crate that is named is one; each CRATE::ITEM is public there, or a definition."""
    text = sources.text_of(path)
    known = sources.crates()
    for match in CRATE.finditer(text):
        name = match[1]
        before, after = text[max(0, match.start() - 1):match.start()], text[match.end():match.end() + 1]
        if name in known or before in "/.-" and before or after in ("*", "N", "("):
            continue
        if not sources.names_anywhere(name) and not name.isupper():
            faults.append(f"{path}:{line_of(text, match.start())}: there is no crate {name}")
    for match in CITED.finditer(text):
        crate, item = match[1], match[2]
        if crate in known and item not in sources.names_of(crate):
            faults.append(f"{path}:{line_of(text, match.start())}: {crate} has no public {item}")


def check_labels(path, faults):
    """Each clause that is named beside its call is one of its contract."""
    text = sources.text_of(path)
    flat = re.sub(r"\n +(?=\S)", lambda match: " " * len(match[0]), text)
    flat = re.sub(r"\n(?=[^\n#|-])", " ", flat)
    for match in LABELS.finditer(re.sub(r" {2,}", lambda m: m[0], flat)):
        labels = labels_of(match[1])
        if labels is None:
            continue
        for label in re.findall(r"`(\w+)`", match[2] or match[3] or match[4]):
            if label not in labels:
                faults.append(f"{path}:{line_of(text, match.start())}: {match[1]} has no clause {label}")


def check_words(path, faults):
    """Each name in backticks that looks like one of the sources stands somewhere in them."""
    text = prose(sources.text_of(path))
    for match in re.finditer(r"`([A-Za-z]\w{3,}(?:::\w+)*)`", text):
        for name in match[1].split("::"):
            if ("_" in name.strip("_") or name != name.lower()) and not sources.names_anywhere(name):
                faults.append(f"{path}:{line_of(text, match.start())}: {name} stands nowhere in the sources")


@functools.cache
def scripts():
    return {os.path.basename(file) for folder in ("examples", "tests", "bench", "docs", "crates")
            for ending in (".py", ".sh") for file in sources.files_below(folder, ending)}


def check_scripts(path, faults):
    """Each script that is named without its folder is there."""
    there = scripts()
    text = sources.text_of(path)
    for match in re.finditer(r"`([a-z]\w*\.(?:py|sh))[` ]", text):
        if match[1] not in there:
            faults.append(f"{path}:{line_of(text, match.start())}: there is no script {match[1]}")


def check_page(path, faults):
    for check in (check_links, check_paths, check_widths, check_names, check_labels, check_words, check_scripts):
        check(path, faults)


# ---- theorems

def bullets(text, name):
    """The bullets of this name: where each begins, and its text."""
    pattern = rf"^- \*{name}\*:(.*?)(?=\n- \*|\n\n|\n#|\n<!--|\Z)"
    return [(match.start(), match[1]) for match in re.finditer(pattern, text, re.S | re.M)]


def calls_of(bullet):
    """The calls that a bullet names, as CRATE::ITEM: a name alone is of the crate that was named before. Each with what
    it is: a whole name, a name alone, or one in brackets, which is a clause of the call before it."""
    crate, found = None, []
    for match in re.finditer(r"`([^`]+)`|\(((?:[^()`]|`[^`]*`)*)\)", re.sub(r"\s+", " ", bullet)):
        names, inside = ([match[1]], False) if match[1] else (re.findall(r"`([^`]+)`", match[2]), True)
        for name in names:
            if re.fullmatch(r"(?:ct|law|def)_\w+::[\w:]+", name):
                crate = name.split("::")[0]
                found.append((name, "whole"))
            elif crate and re.fullmatch(r"[A-Za-z][\w:]*", name):
                found.append((f"{crate}::{name}", "clause" if inside else "alone"))
    return found


def check_calls(path, faults):
    """Of each *Call*: what is named is a call, or a clause of the call before it."""
    text = sources.text_of(path)
    for start, bullet in bullets(text, "Call"):
        last = None
        where = f"{path}:{line_of(text, start)}"
        for call, kind in calls_of(bullet):
            crate, _, name = call.partition("::")
            if crate not in sources.crates():
                continue
            if kind != "clause" and name in sources.names_of(crate):
                last = call
            elif kind == "whole" or name not in (labels_of(last) or () if last else ()):
                faults.append(f"{where}: {name} is neither a call of {crate} nor a clause of {last}")


def named_calls(path):
    """The calls that a page of theorems names in its *Call* bullets."""
    found = set()
    for _, bullet in bullets(sources.text_of(path), "Call"):
        for call, kind in calls_of(bullet):
            crate, _, name = call.partition("::")
            if kind != "clause" and crate in sources.crates() and name in sources.names_of(crate):
                found.add(call)
    return found


def calls_in_tables(path):
    """The calls that the rows of a page's tables name, whole or after another of the crate, clauses apart."""
    found = set()
    for line in sources.text_of(path).split("\n"):
        if line.startswith("|") and not line.startswith("|-"):
            for call, kind in calls_of(line):
                crate, _, name = call.partition("::")
                if kind != "clause" and crate in sources.crates() and name in sources.names_of(crate):
                    found.add(call)
    return found


def check_read(faults):
    """Each name of a *Read* bullet is that of a definition: what a reader is sent to is there."""
    known = {name for module in sources.modules().values() for name in module.definitions}
    for path in pages():
        for start, bullet in bullets(sources.text_of(path), "Read"):
            for name in re.findall(r"`([A-Za-z]\w*)`", bullet):
                if name not in known and name not in sources.crates():
                    faults.append(f"{path}:{line_of(sources.text_of(path), start)}: no definition is named {name}")


def check_cited(faults):
    """Each page that sources, scripts and commands cite is there."""
    for folder, ending in (("crates", ".rt"), ("crates", ".antt"), ("tests", ""), ("examples", ".py"), ("bench", ""),
                           ("bin", ""), ("samples", ""), (".ci", "")):
        for path in sources.files_below(folder, ending):
            try:
                text = sources.text_of(path)
            except UnicodeDecodeError:
                continue
            for match in re.finditer(r"\bdocs/[\w/-]+\.(?:md|json|svg)", text):
                if not os.path.exists(sources.path_of(match[0])):
                    faults.append(f"{path}:{line_of(text, match.start())}: there is no {match[0]}")
