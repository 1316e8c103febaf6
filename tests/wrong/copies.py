"""A copy of a tree in which definitions are changed and crates checked, and what a check's output says."""
import os
import re
import shutil
import subprocess
import sys
from pathlib import Path

UNUSABLE = ("cannot be used", "not loaded from an artifact", "that can be named from here")


def crates_of(tree):
    """The crates of crates.txt in order, each with those that it names."""
    uses = {}
    for line in (tree / "crates.txt").read_text().splitlines():
        name, colon, below = line.split("#")[0].partition(":")
        if colon:
            uses[name.strip()] = below.split()
    return uses


def below(uses, name):
    seen, todo = set(), [name]
    while todo:
        for n in uses.get(todo.pop(), []):
            if n in uses and n not in seen:
                seen.add(n)
                todo.append(n)
    return seen


def linked(old, new):
    try:
        os.link(old, new)
    except OSError:
        shutil.copy2(old, new)


class Copy:
    """A copy of a tree: its sources, and its built libraries as hard links, which are only ever replaced whole."""

    def __init__(self, tree, room, wanted, checked):
        self.tree, self.room, self.uses = tree, room, crates_of(tree)
        self.order = list(self.uses)
        kit = Path(shutil.which("rattle") or sys.exit("wrong_machines.py: rattle isn't on the path")).resolve()
        self.kit = kit.parent.parent
        shutil.copy(tree / "crates.txt", room)
        for name in self.order:
            if name not in wanted:
                continue
            new = room / "crates" / name
            for part in ("src", "specs", "proofs"):
                if (tree / "crates" / name / part).is_dir():
                    shutil.copytree(tree / "crates" / name / part, new / part)
            if not self.library(tree, name).exists():
                sys.exit(f"wrong_machines.py: {name} isn't built in {tree}: run a gate there first")
            if self.is_stale(name):
                sys.exit(f"wrong_machines.py: {name} isn't built from its sources in {tree}: run a gate there first")
            self.restore(name)
            if name in checked and (tree / "crates" / name / "out" / "inc").is_dir():
                shutil.copytree(tree / "crates" / name / "out" / "inc", new / "out" / "inc")

    def library(self, tree, name):
        return tree / "crates" / name / "out" / "rlib"

    def is_stale(self, name):
        """Whether a text that the library holds isn't the tree's any more."""
        built = self.library(self.tree, name) / f"{name}.rlib" / "lang" / "antt"
        for part in ("specs", "proofs"):
            for file in (built / part).rglob("*.antt"):
                own = self.tree / "crates" / name / part / file.relative_to(built / part)
                if own.exists() and own.read_bytes() != file.read_bytes():
                    return True
        return False

    def restore(self, name):
        shutil.rmtree(self.library(self.room, name), ignore_errors=True)
        shutil.copytree(self.library(self.tree, name), self.library(self.room, name), copy_function=linked)

    def run(self, command, name):
        """Checks or builds one crate over the libraries as they stand: whether it is proved, and the output."""
        std, crate = self.kit / "rlibs", self.room / "crates" / name
        words = [str(self.kit / "bin" / "rattle"), command, "--crate-name", name, "src/lib.rt"]
        words += ["--extern", f"std={std}/std.rlib", "-L", f"dependency={std}"]
        for n in self.uses[name]:
            words += ["--extern", f"{n}={self.library(self.room, n) if n in self.uses else std}/{n}.rlib"]
        for n in self.order:
            if n in below(self.uses, name):
                words += ["-L", f"dependency={self.library(self.room, n)}"]
        kept = crate / "out" / "inc"
        kept.mkdir(parents=True, exist_ok=True)
        words += ["--antt-project", str(self.kit / "rattle/logic/antt-project.json")]
        words += ["--logic-built", str(self.kit / "logic_built"), "--links", name + "=", "--jobs", "1"]
        words += ["--incremental", str(kept)]
        if command == "build":
            shutil.rmtree(self.library(self.room, name), ignore_errors=True)
            self.library(self.room, name).mkdir(parents=True)
            words += ["-o", f"{self.library(self.room, name)}/{name}.rlib"]
        done = subprocess.run(words, cwd=crate, capture_output=True, text=True)
        return done.returncode == 0, done.stdout + done.stderr


def failures(text):
    """The declarations that fail for themselves, each with its file: not what rests on a module that can't be used."""
    found = []
    for line in text.splitlines():
        at = re.match(r"(?:\./)?((?:proofs|src|specs)/\S+?):(\d+):\d+: error: (.*)", line)
        if not at or any(part in at.group(3) for part in UNUSABLE) or " that depend" in at.group(3):
            continue
        named = re.match(r"`([^`]*)`:", at.group(3))
        found.append(f"{named.group(1) if named else at.group(3)[:60]} ({at.group(1)}:{at.group(2)})")
    return found


def laws_lost(text):
    """The public functions whose proof rests on a declaration that fails for itself."""
    rests = r"(?:\./)?proofs/(?:\S+/)?(\w+)/\w+\.antt:\d+:\d+: error: \d+ declarations? that depends? on"
    return [at.group(1) for at in map(re.compile(rests).match, text.splitlines()) if at]


def refused(machine, text):
    """How the law's crate refuses a machine: by the law that the table names, or by which."""
    lost = laws_lost(text)
    verdict = "refused" if machine.law in lost else "refused by " + (", ".join(lost) or "a lemma")
    failing = failures(text)
    return verdict, "fails: " + ", ".join(failing[:3]) + (" .." if len(failing) > 3 else "")
