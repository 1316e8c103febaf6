# What the scripts beside it share; each that needs a folder for its files sources it first. It sets
#   here     the repository
#   program  the program, which the first word names; without one that of bin/build
#   work     a folder for files, which is gone when the script ends
#   output   what the last `used` wrote
here=$(cd "$(dirname "${BASH_SOURCE[0]}")/.." && pwd)
program=$(realpath -m "${1:-$here/crates/ct_main/out/ct_main}")
if [ ! -x "$program" ]; then
    echo "$(basename "$0"): there is no program at $program; bin/build makes it" >&2
    exit 1
fi
folder=$(mktemp -d)
trap 'rm -rf "$folder"' EXIT
work=$folder/files
output=$folder/output
mkdir "$work"

# used WORD..: runs a command five times. Its status; the least seconds of the processor, of the system's too; and the
# most MiB that it held, which can't be told below the ten or so of the Python that starts it.
used() {
    read -r status seconds held < <(python3 - "$output" "$@" <<'PYTHON'
import os
import subprocess
import sys


def once():
    with open(sys.argv[1], "wb") as file:
        run = subprocess.Popen(sys.argv[2:], stdout=file)
        _, status, usage = os.wait4(run.pid, 0)
        run.returncode = os.waitstatus_to_exitcode(status)
    return usage.ru_utime + usage.ru_stime, usage.ru_maxrss / 1024, run.returncode


runs = [once() for _ in range(5)]
print(runs[0][2], "%.3f" % min(run[0] for run in runs), "%.0f" % max(run[1] for run in runs))
PYTHON
    )
}

# loads FILE: the least seconds of the processor of five that Python takes to read the file's text as JSON, without its
# own start
loads() {
    python3 - "$1" <<'PYTHON'
import json
import sys
import time


def once():
    start = time.process_time()
    try:
        with open(sys.argv[1]) as file:
            json.load(file)
    except (ValueError, RecursionError):
        pass
    return time.process_time() - start


print("%.3f" % min(once() for _ in range(5)))
PYTHON
}

# descriptions FILE FORM..: into the folder, of each form 1, 4 and 16 MiB: blanks before the small description in the
# file, it with many devices or exports of distinct names, with many words of code or with many devices that are small
# values of one kind, with many members that no description has, or half of these in a compartment and half exports,
# or open brackets alone; and the largest lawful one
descriptions() {
    python3 -B - "$here/bench" "$work" "$@" <<'PYTHON'
import sys
sys.path.insert(0, sys.argv[1])
import largest


def put(name, text):
    with open(f"{sys.argv[2]}/{name}", "w") as file:
        file.write(text)


with open(sys.argv[3]) as file:
    tiny = file.read().strip()


def many(size, member, element):
    """The small one, about as long as told by such elements at the front of a list."""
    count = (size - len(tiny)) // len(element(0) + ",")
    return tiny.replace(f'"{member}":[', f'"{member}":[' + "".join(element(i) + "," for i in range(count)))


def idle(size, text):
    """A description, about as long as told by members of no meaning at the front of its first compartment."""
    return text.replace('"compartments":[{', '"compartments":[{' + '"":0,' * ((size - len(text)) // 5))


FORMS = {
    "blanks": lambda size: " " * (size - len(tiny)) + tiny,
    "devices": lambda size: many(size, "devices", '{"name":"d%07d","kind":"uart","base":268435456}'.__mod__),
    "exports": lambda size: many(size, "exports", '{"name":"e%07d","at":0}'.__mod__),
    "words": lambda size: many(size, "words", lambda i: '"00000297"'),
    "objects": lambda size: many(size, "devices", lambda i: '{"a":0}'),
    "empties": lambda size: many(size, "devices", lambda i: "{}"),
    "lists": lambda size: many(size, "devices", lambda i: "[]"),
    "numbers": lambda size: many(size, "devices", lambda i: "0"),
    "escapes": lambda size: many(size, "devices", lambda i: r'"\n"'),
    "members": lambda size: idle(size, tiny),
    "halves": lambda size: idle(size, many(size // 2, "exports", '{"name":"e%07d","at":0}'.__mod__)),
    "brackets": lambda size: "[" * size,
}
for mib in (1, 4, 16):
    for form in sys.argv[4:]:
        put(f"{form}-{mib}", FORMS[form](mib << 20))
put("largest", largest.text())
PYTHON
}
