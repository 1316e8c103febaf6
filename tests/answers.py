#!/usr/bin/env python3
"""What the program answers to each case of a folder: NAME is a file, NAME.args the words, NAME.stdout what is due.

    answers.py CASES PROGRAM FILE=PATH..   runs the program for each case, in a folder where the files stand by their
                                           names, {} being the case's, and compares what it writes and its status
    answers.py CASES                       reads what `rt try --cases` says of the cases, a line for each: the kit
                                           compares the texts and judges no status, so this compares the statuses

NAME.room, where it stands, says how much of that there is room for: so many bytes, or a word of ENDS where none can be
written. The kit can't do this, so such cases need a PROGRAM.

By docs/use/errors.md a refusal's line has its status as the second word, a denial has a status of its own, and all
else is due with 0; where there isn't room for all that is due its beginning is written, with a status of its own.
Nothing is written to standard error. What differs is printed, with status 1.
"""
import concurrent.futures
import os
import queue
import re
import shutil
import subprocess
import sys
import tempfile

FAILED = 9
DENIED = 12
SECONDS = 60

# How a program is run into the file `output`, of which the system lets so many bytes be written.
INTO_A_FILE = 'trap "" XFSZ; exec prlimit --fsize={} "$@" > output'

# How a program is run whose output is a full disk, is closed, or is a pipe that nobody reads any more.
ENDS = {
    "full": 'exec "$@" > /dev/full',
    "closed": 'exec "$@" >&-',
    "pipe": 'exec "$@" 3<> pipe > pipe 3>&-',
}


def status_of(due):
    """The status with which a text is due."""
    first, *more = due.split(b" ", 2)
    return int(more[0]) if first == b"refused" else DENIED if first == b"denied" else 0


def content(*path):
    with open(os.path.join(*path), "rb") as file:
        return file.read()


def names_of(cases):
    return [name.removesuffix(".stdout") for name in sorted(os.listdir(cases)) if name.endswith(".stdout")]


def room_of(cases, name):
    """What there is room for of a case's output; None for all that comes."""
    has_room = os.path.exists(os.path.join(cases, name + ".room"))
    return content(cases, name + ".room").decode().strip() if has_room else None


def due(cases, name, room):
    """What a case must write where there is so much room, and its status."""
    whole = content(cases, name + ".stdout")
    if room is None:
        return whole, status_of(whole)
    written = b"" if room in ENDS else whole[:int(room)]
    return written, status_of(whole) if written == whole else FAILED


def command(words, room):
    """The words that run a program with so much room."""
    if room is None:
        return words
    return ["sh", "-c", ENDS.get(room) or INTO_A_FILE.format(int(room)), "sh", *words]


def fault(cases, name, program, folder):
    """What differs in the program's answer to a case, if anything does."""
    shutil.copyfile(os.path.join(cases, name), os.path.join(folder, "case"))
    words = content(cases, name + ".args").replace(b"{}", b"case").split(b"\n")[:-1]
    room = room_of(cases, name)
    try:
        ran = subprocess.run(command([program, *words], room), cwd=folder, stdin=subprocess.DEVNULL,
                             capture_output=True, timeout=SECONDS)
    except subprocess.TimeoutExpired:
        return f"{name}: no end in {SECONDS} seconds"
    written = ran.stdout if room is None or room in ENDS else content(folder, "output")
    wanted, status = due(cases, name, room)
    if written != wanted:
        return f"{name}: wrote {written[:200]}, {wanted[:200]} is due"
    if ran.stderr:
        return f"{name}: wrote {ran.stderr[:200]} to standard error"
    if ran.returncode != status:
        return f"{name}: status {ran.returncode}, {status} is due"
    return None


def run(cases, program, files):
    """What differs in the answers of a program, which is run for as many cases at once as there are processors."""
    folders, at_once = queue.SimpleQueue(), os.cpu_count() or 1
    paths = dict(file.split("=", 1) for file in files)
    with tempfile.TemporaryDirectory() as top, concurrent.futures.ThreadPoolExecutor(at_once) as pool:
        for number in range(at_once):
            folder = os.path.join(top, str(number))
            os.mkdir(folder)
            os.mkfifo(os.path.join(folder, "pipe"))
            for name, path in paths.items():
                os.symlink(path, os.path.join(folder, name))
            folders.put(folder)

        def one(name):
            folder = folders.get()
            try:
                return fault(cases, name, program, folder)
            finally:
                folders.put(folder)

        return [it for it in pool.map(one, names_of(cases)) if it]


def status_faults(cases, said):
    """What differs in the statuses that the kit tells."""
    ended = dict(re.findall(r"^case=(\S+) run=ended status=(\d+) ", said, re.M))
    due = {name: str(status_of(content(cases, name + ".stdout"))) for name in names_of(cases)}
    return [f"{name}: status {ended.get(name)}, {due[name]} is due" for name in due if ended.get(name) != due[name]]


def main():
    cases, *more = sys.argv[1:]
    faults = run(cases, more[0], more[1:]) if more else status_faults(cases, sys.stdin.read())
    count = len(names_of(cases))
    print("\n".join(faults) if faults else f"all {count} {'answers and ' * bool(more)}statuses as due")
    return 1 if faults or not count else 0


if __name__ == "__main__":
    sys.exit(main())
