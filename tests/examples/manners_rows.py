#!/usr/bin/env python3
"""Tries how each script meets its caller: its help, words that are no call, files that aren't there, what is no report,
a full disk, an output that nobody reads, a terminal as its input, and Ctrl-C.

    manners_rows.py [PROGRAM]

A script that ends by manners.run and has no call here is tried by its help and words that are no call alone, and named.
Status 0: nothing differs. Status 1: what differs is printed.
"""
import ast
import os
import select
import shutil
import signal
import subprocess
import sys
import tempfile

sys.dont_write_bytecode = True
from paths import EXAMPLES, HERE, SAMPLES, TESTS  # noqa: E402
from model import images  # noqa: E402

# A call of each script in a copy of the sample packets, and the file that is its input, if it has one.
REPORT, RUN = "report.json", "run"
LONG, SECONDS = 1000, 30  # lines of a long run, and how long its first ones may take
CALLS = {
    "authority.py": ([], REPORT), "devices.py": ([], REPORT), "policy.py": ([], REPORT), "picture.py": ([], REPORT),
    "sharing.py": ([], REPORT), "names.py": ([], RUN), "page.py": (["-"], RUN),
    "changes.py": ([REPORT, "other.json"], None), "map.py": (["packets.json"], None),
    "step.py": (["packets.json", "60", "packets.script"], None), "script.py": (["text"], None),
    "reach.py": ([], REPORT), "manual.py": ([], None),
    "fuzz.py": (["--plain", "--runs", "0", "packets.json", "60", "packets.script"], None),
    "trace.py": (["packets.json", "60", "packets.script"], None), "disassemble.py": (["tiny.image"], None),
    "digests.py": (["tiny.image"], None), "schema.py": (["twice.json"], None),
    "explain.py": (["audit", "packets.json"], "refusal")}
# Those that call capfw.
PROGRAM_CALLS = {"describe.py": (["tiny.image", "of"], None), "gate.py": (["audit", "packets.json"], None),
                 "rules.py": (["packets.json", "rules"], None)}
# What no script takes as its input: nothing, a refusal, no UTF-8, values that are no report.
STRAY = [b"", b"refused 1 usage\n", b"\xff\xfe\n", b"{}\n", b"[1]\n", b"[" * 100000 + b"\n",
         b'{"firmware":"f","quantum":1,"heap":{"length":1},"compartments":["a"],"libraries":[],"devices":[],'
         b'"edges":[],"threads":[],"entries":[{"number":1}]}\n']


def text_of(*path):
    with open(os.path.join(*path), encoding="utf-8") as file:
        return file.read()


def call(script, program):
    """The words of a script's call, and its input as an open file."""
    words, source = (CALLS | PROGRAM_CALLS)[script]
    before = ["--capfw", program] if script in PROGRAM_CALLS else []
    return [sys.executable, os.path.join(EXAMPLES, script), *before, *words], open(source or os.devnull, "rb")


def ran(words, stdin=subprocess.DEVNULL, stdout=subprocess.PIPE):
    shutil.rmtree("of", ignore_errors=True)
    done = subprocess.run(words, stdin=stdin, stdout=stdout, stderr=subprocess.PIPE)
    return done.returncode, done.stdout or b"", done.stderr.decode("utf-8", "replace")


def is_refused(found, *wanted):
    """Whether a script ended with status 2 and told why on standard error, with these words."""
    status, _, error = found
    return status == 2 and error != "" and "Traceback" not in error and all(word in error for word in wanted)


def on_terminal(words, *keys):
    done = subprocess.run([sys.executable, os.path.join(TESTS, "terminal.py"), *keys, *words], capture_output=True)
    return done.stdout.decode("utf-8", "replace")


def words_faults(script, words):
    """Help, and words that are no call."""
    doc = ast.get_docstring(ast.parse(text_of(EXAMPLES, script)), clean=False)
    if ran([*words[:2], "--help"]) != (0, (doc.strip() + "\n").encode(), ""):
        yield "--help"
    if script not in ("explain.py", "gate.py") and not is_refused(ran([*words, "--nosuch"])):
        yield "a word too many"


def file_faults(script, words, source):
    """Files that aren't there, and folders in their places."""
    first = 4 if script in PROGRAM_CALLS else 2
    names = [at for at, word in enumerate(words) if at >= first and os.path.isfile(word)]
    for at in names if script not in ("explain.py", "gate.py") else []:
        for name, why in (("nosuch", "nosuch: No such file"), (".", "Is a directory")):
            found = ran([*words[:at], name, *words[at + 1:]], source)
            if not is_refused(found, why) and not (script in PROGRAM_CALLS and is_refused(found, "refused 2 read")):
                yield f"{name} in the place of {words[at]}: {found}"


def input_faults(script, words):
    """What is no report, and a terminal."""
    for stray in STRAY if script != "explain.py" else []:
        with open("stray", "wb") as file:
            file.write(stray)
        if not is_refused(ran(words, open("stray", "rb")), "no report"):
            yield f"what is no report: {stray[:40]}"
    found = on_terminal(words, "--type", "^D")
    if "reading the terminal" not in found or script != "explain.py" and not found.endswith("status 2\n"):
        yield f"a terminal: {found}"
    found = on_terminal(words, "--type", "^C")
    if "Traceback" in found or not found.endswith(f"interrupted\nstatus {-signal.SIGINT}\n"):
        yield f"Ctrl-C: {found}"


def output_faults(words, source):
    """A full disk, and an output that nobody reads."""
    with open("/dev/full", "wb") as full:
        found = ran(words, source, full)
    if not is_refused(found, "No space left on device"):
        yield f"a full disk: {found}"
    reader, writer = os.pipe()
    os.close(reader)
    source.seek(0)
    status, _, error = ran(words, source, writer)
    os.close(writer)
    if "Traceback" in error or status not in (2, -signal.SIGPIPE):
        yield f"an output that nobody reads: {status}, {error}"


def comes_early(words):
    """Whether something of a long run is written before its end is read."""
    child = subprocess.Popen(words, stdin=subprocess.PIPE, stdout=subprocess.PIPE)
    child.stdin.write((text_of(REPORT) + "4 load t0 c0 e4 10000000 4 00000001\n" * LONG).encode())
    child.stdin.flush()
    told, more = b"", b"..."
    while more and b"load" not in told and select.select([child.stdout], [], [], SECONDS)[0]:
        more = os.read(child.stdout.fileno(), 1 << 20)
        told += more
    child.kill()
    child.communicate()
    return b"load" in told


def faults(script, program):
    words, source = call(script, program)
    yield from words_faults(script, words)
    yield from file_faults(script, words, source)
    if (CALLS | PROGRAM_CALLS)[script][1]:
        yield from input_faults(script, words)
    source.seek(0)
    yield from output_faults(words, source)
    if script == "names.py" and not comes_early(words):
        yield "nothing comes before the end of a long run"


def prepare():
    """The sample, a run, another report, an image, and a description with a member that stands twice."""
    shutil.copytree(os.path.join(SAMPLES, "packets"), ".", dirs_exist_ok=True)
    sample = text_of("packets.json")
    for name, text in (("run", text_of(REPORT) + text_of("run.txt")), ("refusal", "refused 4 description F9 ram 0 0\n"),
                       ("text", '@2 eth0 "K"\n'), ("rules", "device eth0 only net\n"),
                       ("other.json", text_of(SAMPLES, "sensor", "report.json")),
                       ("twice.json", sample.replace('"quantum"', '"quantum": 1, "quantum"', 1))):
        with open(name, "w", encoding="utf-8") as file:
            file.write(text)
    with open("tiny.image", "wb") as file:
        file.write(images.tiny())


def main(words):
    program = os.path.realpath(words[0]) if words and words[0] else None
    scripts = [name for name in sorted(os.listdir(EXAMPLES)) if name.endswith(".py")
               and "manners.run(main)" in text_of(EXAMPLES, name)]
    others = [name for name in scripts if name not in CALLS | PROGRAM_CALLS]
    tried, found = [name for name in scripts if name in CALLS or program and name in PROGRAM_CALLS], []
    with tempfile.TemporaryDirectory() as folder:
        os.chdir(folder)
        prepare()
        found += [f"{name}: {fault}" for name in tried for fault in faults(name, program)]
        found += [f"{name}: {fault}" for name in others
                  for fault in words_faults(name, [sys.executable, os.path.join(EXAMPLES, name)])]
        os.chdir(HERE)
    print("\n".join(found), end="\n" * bool(found))
    more = f"; by their words alone: {', '.join(others)}" if others else ""
    print(f"{len(found)} faults in the manners of {len(tried)} scripts{more}")
    return 1 if found or not tried else 0


if __name__ == "__main__":
    sys.exit(main(sys.argv[1:]))
