#!/usr/bin/env python3
"""Runs the commands that pages show, in a folder of their own, and compares what they write with what is shown.

    pages.py PROGRAM [PAGE..]     all pages of PAGES where none is named; in them `capfw` is PROGRAM

In a page a block of lines behind four spaces is a session where its first line begins with `$ `: each such line is a
command, and the lines up to the next are what it writes, standard error with it. A block right behind a line that ends
with the name of a file, as `NAME`: with its colon, is that file's text. Any other block is left alone. A page of
COPIED begins in a copy of the repository's samples, any other in an empty folder. A command of which a tool isn't there
(jq, say) is left out, and said so, and so is one of the kit, which would prove things. Of the course the files that it
ends with must be those of its sample.

Status 0: nothing differs.
"""
import os
import re
import shutil
import subprocess
import sys
import tempfile

TOP = os.path.dirname(os.path.dirname(os.path.abspath(__file__)))
COURSE = "docs/use/guide.md"
COPIED = ["README.md", "docs/use/samples.md", "docs/use/policies.md", "docs/use/report.md"]
PAGES = [COURSE, *COPIED]
SAMPLE = os.path.join(TOP, "samples", "packets")
FOUND = "report.json", "run.txt", "why.txt"
TOOLS = "jq", "python3"
KIT = "rt"
MARGIN = "    "
SECONDS = 60


def text_of(path):
    with open(path, encoding="utf-8") as file:
        return file.read()


def blocks(text):
    """Each indented block with the line before it."""
    found, before, block = [], "", []
    for line in [*text.splitlines(), "."]:
        if line.startswith(MARGIN) or (block and not line.strip()):
            block.append(line[len(MARGIN):])
            continue
        if block:
            found.append((before, "\n".join(block).rstrip("\n") + "\n"))
            block = []
        if line.strip():
            before = line
    return found


def steps(block):
    """The commands of a session, each with what it is to write."""
    found = []
    for line in block.splitlines(keepends=True):
        if line.startswith("$ "):
            found.append((line[2:].rstrip("\n"), []))
        else:
            found[-1][1].append(line)
    return [(command, "".join(wanted)) for command, wanted in found]


class Shell:
    """A folder, and the commands that are run there one after another."""

    def __init__(self, top, program):
        self.folder, self.where, commands = (os.path.join(top, name) for name in ("work", "where", "commands"))
        os.mkdir(self.folder)
        os.mkdir(commands)
        os.symlink(program, os.path.join(commands, "capfw"))
        self.environment = dict(os.environ, CAPFW=TOP, PATH=commands + ":" + os.environ["PATH"])

    def run(self, command):
        """What a command writes; the next one goes on in the folder where it ends."""
        words = ["bash", "-c", f'cd "$1" || exit; {command}\npwd > "$2"', "bash", self.folder, self.where]
        try:
            ran = subprocess.run(words, env=self.environment, stdin=subprocess.DEVNULL, stdout=subprocess.PIPE,
                                 stderr=subprocess.STDOUT, timeout=SECONDS, text=True)
        except subprocess.TimeoutExpired:
            return f"(no end in {SECONDS} seconds)\n"
        self.folder = text_of(self.where).rstrip("\n")
        return ran.stdout


def is_left_out(command):
    return KIT in command.split() or any(
        re.search(rf"\b{tool}\b", command) and not shutil.which(tool) for tool in TOOLS)


def faults_of(page, folder, shell):
    """What differs of a page's sessions, and how many commands were run and left out."""
    faults, ran, left = [], 0, 0
    for before, block in blocks(text_of(os.path.join(TOP, page))):
        named = re.search(r"`([\w.-]+)`[^`]*:$", before)
        if block.startswith("$ "):
            for command, wanted in steps(block):
                if is_left_out(command):
                    left += 1
                    continue
                found, ran = shell.run(command), ran + 1
                if found != wanted:
                    faults.append(f"{page}: $ {command}\nwrote:\n{found}shown:\n{wanted}")
        elif named and page == COURSE:
            with open(os.path.join(folder, named[1]), "w") as file:
                file.write(block)
    return faults, ran, left


def of_course(folder):
    """What differs between the files that the course ends with and its sample's."""
    for name in sorted(os.listdir(SAMPLE)):
        made = os.path.join(folder, name)
        if name not in FOUND and not (os.path.exists(made) and text_of(made) == text_of(os.path.join(SAMPLE, name))):
            yield f"{COURSE}: {name} isn't samples/packets/{name}"


def tried(page, program):
    """What differs of a page, tried in a folder of its own."""
    with tempfile.TemporaryDirectory() as top:
        shell = Shell(top, program)
        folder = shell.folder
        if page in COPIED:
            shutil.copytree(os.path.join(TOP, "samples"), os.path.join(folder, "samples"))
        faults, ran, left = faults_of(page, folder, shell)
        if page == COURSE:
            faults += of_course(folder)
    print(f"pages: {page}: {ran} commands, {left} left out, {len(faults)} differ")
    return faults if ran else [*faults, f"{page}: no command was run"]


def main():
    program, pages = os.path.abspath(sys.argv[1]), sys.argv[2:] or PAGES
    faults = [fault for page in pages for fault in tried(page, program)]
    print("\n".join(faults), end="\n" * bool(faults))
    return 1 if faults else 0


if __name__ == "__main__":
    sys.exit(main())
