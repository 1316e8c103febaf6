"""Recipes of contributing.md: each lists the files that know a thing of its kind, and names a thing that is there.

A recipe begins with `<!-- recipe: WORD.. -->` and ends with `<!-- end -->`. Its words are names of one thing of the kind
(an instruction, a routine, ..). Every file that names one of them as a whole word must be in the recipe, and every file
in it must name one, but for those of a line *Unnamed*, which know the thing without its name. With `&` before it a word
is asked for besides: a file counts where it has one of each.
"""
import functools
import os
import re

from . import sources

PAGE = "docs/build/contributing.md"
RECIPE = re.compile(r"<!-- recipe: ([^\n]*?) -->\n(.*?)<!-- end -->", re.S)
LOOKED_AT = ("crates", "tests", "examples", "bench", "docs", "bin")
LEFT_OUT = re.compile(r"/must-fail/|^docs/(?:build|checks|claims)/|^docs/use/(?:guide|samples|tools)\.md|^bench/loops/|"
                      r"/expected/|/planted|^examples/try|^tests/examples/|\.(?:svg|html|args)$")

# what the kit says of an iterator, which is no name of ours
KIT_WORD = "ghost remaining ="


@functools.cache
def texts():
    """Every file that may know a thing, with its words."""
    found = {}
    for folder in LOOKED_AT:
        for path in sources.files_below(folder, ""):
            if LEFT_OUT.search(path) or os.path.islink(sources.path_of(path)):
                continue
            try:
                found[path] = set(re.findall(r"\w+", sources.text_of(path).replace(KIT_WORD, "")))
            except UnicodeDecodeError:
                continue
    return found


def files_that_name(words):
    besides = [word[1:].split("|") for word in words if word.startswith("&")]
    named = [word for word in words if not word.startswith("&")]
    return {path for path, there in texts().items()
            if there & set(named) and all(there & set(each) for each in besides)}


def place(named):
    """The path of a file that a recipe names, from the top; None where there is none."""
    for path in (named, f"crates/{named}", f"docs/{named}"):
        if os.path.isfile(sources.path_of(path)):
            return path
    return None


def check_recipe(words, text, faults):
    title = f"{PAGE}: the recipe by {words[0]}"
    unnamed = "\n".join(re.findall(r"^\*Unnamed\*:.*?(?=\n\n|\n\*|\Z)", text, re.S | re.M))
    listed, apart = set(), set()
    for part, found in ((text.replace(unnamed, "") if unnamed else text, listed), (unnamed, apart)):
        for named in re.findall(r"`((?:[\w.-]+/)+[\w.-]+)`", part):
            path = place(named)
            if path is None:
                faults.append(f"{title}: there is no {named}")
            else:
                found.add(path)
    due = files_that_name(words)
    faults += [f"{title}: {path} names it, and isn't listed" for path in sorted(due - listed)]
    faults += [f"{title}: {path} is listed, and doesn't name it" for path in sorted(listed - due)]
    faults += [f"{title}: {path} is said to have no name of it, and has" for path in sorted(apart & due)]
    return len(listed), len(apart)


def check_recipes(faults):
    """Every recipe lists the files that know a thing of its kind, and no other."""
    found = RECIPE.findall(sources.text_of(PAGE))
    if not found:
        faults.append(f"{PAGE}: has no recipe")
    return [(words, *check_recipe(words.split(), text, faults)) for words, text in found]
