"""What is counted: rows of the tables, wrong bodies, tests, and the numbers that stand in pages."""
import functools
import os
import re
import shutil
import subprocess
import sys
import tempfile

from . import reading, sources


# ---- tables of rows

def table_places():
    """The tables that a try.sh names, by their names, each with its file."""
    places = {}
    for script in ("tests/try.sh", "samples/try.sh"):
        if not os.path.exists(sources.path_of(script)):
            continue
        folder = os.path.dirname(script)
        found = sorted(sources.files_below(folder, ".py"), key=lambda path: (-path.count("/"), path))
        files = {os.path.basename(path)[:-3]: path for path in found}
        for names in re.findall(r"\btables\+?=\(([^)]*)\)", sources.text_of(script)):
            places.update({name: files[name] for name in names.split() if name in files})
    return places


@functools.cache
def tables():
    """The names of the rows of each table: a table writes one file of words, NAME.args, for each."""
    found = {}
    for name, path in table_places().items():
        work = tempfile.mkdtemp()
        try:
            place = os.path.join(work, "cases")
            os.mkdir(place)
            done = subprocess.run([sys.executable, "-B", sources.path_of(path), place], capture_output=True, text=True)
            rows = sorted(file[:-5] for file in os.listdir(place) if file.endswith(".args"))
            found[name] = rows if done.returncode == 0 else []
        finally:
            shutil.rmtree(work)
    return found


@functools.cache
def row_names():
    return {word for rows in tables().values() for row in rows for word in (row, row.replace("-", "_"))}


def summary_of(path):
    """The first sentence of a script's own description."""
    match = re.search(r'^"""(.*?)(?:\n\n|""")', sources.text_of(path), re.S | re.M)
    return sources.sentence(match[1].split("\n")) if match else ""


# ---- wrong bodies and tests

@functools.cache
def edits():
    """The names of the wrong bodies of each crate."""
    found = {}
    for crate in sources.crates():
        names = [os.path.basename(path)[:-5] for path in sources.files_below(f"crates/{crate}/must-fail", ".edit")]
        if names:
            found[crate] = names
    return found


@functools.cache
def tests():
    """How many tests each crate has."""
    found = {}
    for crate in sources.crates():
        count = sum(len(re.findall(r"^\s*#\[test\]", sources.text_of(path), re.M))
                    for path in sources.files_below(f"crates/{crate}/src", ".rt"))
        if count:
            found[crate] = count
    return found


# ---- numbers in pages

def number(value):
    return f"{value:,}"


def hundreds(value):
    return number(round(value, -2))


def rules():
    """The numbers that pages have by hand: page, a pattern whose groups are numbers, and what these are."""
    whole = reading.all_below()
    return [
        ("README.md", r"some\s+([\d,]+)\s+lines\s+of\s+definitions\s+and\s+([\d,]+)\s+of\s+tables",
         [hundreds(whole.lines()), hundreds(whole.table_lines())]),
    ]


def check_numbers(faults, write):
    """Each number of the rules is what is counted; with `write` it is made so."""
    for page, pattern, wanted in rules():
        text = sources.text_of(page)
        match = re.search(pattern, text)
        if not match:
            faults.append(f"{page}: the count /{pattern}/ stands nowhere")
            continue
        if list(match.groups()) == wanted:
            continue
        if not write:
            faults.append(f"{page}:{text.count(chr(10), 0, match.start()) + 1}: "
                          f"counted are {' '.join(wanted)}, and here stand {' '.join(match.groups())}")
            continue
        made = text
        for group in range(len(wanted), 0, -1):
            made = made[:match.start(group)] + wanted[group - 1] + made[match.end(group):]
        sources.write(page, made)
