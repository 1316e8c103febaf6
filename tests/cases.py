"""What the tables of worked rows share: a case of the program for each row, sources, images and runs.

A table is run as TABLE.py OUT: it writes OUT/NAME, OUT/NAME.args and OUT/NAME.stdout for each row, OUT/NAME.room where
not all that is written has room (answers.py), and prints SOURCE=FILE for each source. No two rows have one name, of
all tables that are run into one folder. What a row must write was worked out by hand. Images and reports are made by
model/linker.py and model/reports.py; the plain machine of model/heap.py must write of each run what its row says, so
what the program's output is compared with was found twice. tests/try.sh runs the cases.
"""
import json
import os
import sys

sys.dont_write_bytecode = True
from model import images, reports  # noqa: E402
from model.heap import HeapMachine  # noqa: E402
from model.linker import link  # noqa: E402

SAMPLES = os.path.join(os.path.dirname(os.path.abspath(__file__)), "..", "samples")
OUT = sys.argv[1]
SOURCES = {}


def sample(name):
    """The description of a sample."""
    return json.loads(text_of(name, name + ".json"))


def text_of(*path):
    with open(os.path.join(SAMPLES, *path)) as file:
        return file.read()


def content_of(path):
    with open(path, "rb") as file:
        return file.read()


def case(name, words, data, wanted, room=None):
    """One call of the program: its words, where {} stands for a file of this data, and what it must write into room."""
    assert not os.path.exists(os.path.join(OUT, name)), f"two rows have the name {name}"
    files = [(name, data), (name + ".args", b"".join(bytes_of(word) + b"\n" for word in words)),
             (name + ".stdout", wanted)]
    if room is not None:
        files.append((name + ".room", f"{room}\n"))
    for path, content in files:
        with open(os.path.join(OUT, path), "wb") as file:
            file.write(bytes_of(content))


def bytes_of(text):
    """A text's bytes, or bytes as they are."""
    return text if isinstance(text, bytes) else text.encode()


def stored_file(name, text):
    """A file of this text, which the kit hands to the program too."""
    path = os.path.join(OUT, "..", os.path.basename(OUT) + "-" + name)
    assert not os.path.exists(path) or content_of(path) == bytes_of(text), f"two files have the name {name}"
    with open(path, "wb") as file:
        file.write(bytes_of(text))
    print(f"{name}={os.path.abspath(path)}")
    return name


def source(name, text):
    """A source of these lines as code, and the option by which the kit hands it to the program."""
    SOURCES[name] = text
    return {"file": stored_file(name, "".join(line + "\n" for line in text))}


def lines(*all_lines):
    return "".join(line + "\n" for line in all_lines)


def ended(kind, steps, ticks=0, calls=0, devices=0, allocations=0, frees=0, traps=0):
    return (f"end {kind} steps {steps} ticks {ticks} calls {calls} devices {devices} "
            f"allocations {allocations} frees {frees} traps {traps}")


def image(firmware):
    return link(firmware, SOURCES)


def report(firmware):
    return reports.report(image(firmware))


def modelled(data, limit, script=""):
    """The lines of a run of an image by the plain machine, by the text of a lawful script."""
    read = images.read(data)
    names = [field.rstrip(b"\0").decode() for _, field, _, _ in read.devices]
    rows = [row.split(" ") for row in script.splitlines()]
    inputs = [(int(step), names.index(name), int(byte)) for step, name, byte in rows]
    return HeapMachine(read).run(limit, read.quantum, inputs)


def run(name, firmware, limit, *wanted):
    found = modelled(image(firmware), limit)
    assert found == list(wanted), "\n".join([name, "found:", *found, "wanted:", *wanted])
    case(name, ["run", "{}", str(limit)], json.dumps(firmware), lines(report(firmware), *wanted))


# ---- firmware by a few words

UART = {"as": "uart", "device": "uart0", "rights": "W"}
DEVICES = [{"name": "uart0", "kind": "uart", "base": 0x10000000}]
QUOTA = {"quotas": [{"name": "q", "limit": 64}]}
SMALL = {"base": 0x80000000, "size": 4096}


def gate(export):
    """The import of `compartment.export`, by the export's name."""
    return {"as": export.split(".")[1], "call": export}


def service(name):
    return {"as": name, "service": name}


def served(name):
    """The lines that call a service: four steps, the routine's own among them."""
    return [f"cimport ct2, {name}", "cjalr cra, ct2"]


def calls(name):
    """The lines that call another compartment: six steps, the switcher's own among them."""
    return [f"cimport ct1, {name}", *served("switch")]


def allocates(size):
    """The lines that allocate an object: seven steps, or eight where the size is above 2,047."""
    return ["cimport ca0, q", f"li a1, {size}", *served("allocate")]


def frees():
    """The lines that free what is in ca1: six steps."""
    return ["cimport ca0, q", *served("free")]


def export(name, **members):
    return dict({"name": name, "at": name}, **members)


def compartment(name, imports, exports, *text, **members):
    """A compartment whose code is a file; an export is a name or a row, a line a text or a list of lines."""
    flat = [line for part in text for line in ([part] if isinstance(part, str) else part)]
    return dict({"name": name, "code": {"lines": flat}, "imports": imports,
                 "exports": [export(row) if isinstance(row, str) else row for row in exports]}, **members)


def thread(entry, name="t", priority=1, stack=256, frames=2):
    return {"name": name, "entry": entry, "priority": priority, "stack": stack, "frames": frames}


def row(name, compartments, threads, limit, *wanted, **members):
    """A run of a firmware of this name, with a serial port, whose code stands in lines."""
    whole = dict({"firmware": name, "ram": {"base": 0x80000000, "size": 16384}, "devices": DEVICES,
                  "compartments": compartments, "threads": threads}, **members)
    for owner in compartments + whole.get("libraries", []):
        if "lines" in owner["code"]:
            owner["code"] = source(f"{name}_{owner['name']}.s", owner["code"]["lines"])
    run(name, whole, limit, *wanted)


# ---- lines of a run

def stored(step, thread, actor, entry, value):
    """A word that was stored at the serial port."""
    return f"{step} store t{thread} c{actor} e{entry} 10000000 4 {value % 2 ** 32:08x}"


def called(step, thread, actor, entry, target):
    return f"{step} call t{thread} c{actor} e{entry} e{target}"


def trap(step, thread, actor, cause, code=0, register=0):
    return f"{step} trap t{thread} c{actor} {cause} {code} {register}"


def off(step, thread, actor, target):
    return f"{step} off t{thread} c{actor} e{target}"


def allocated(step, thread, actor, entry, number, base, length, live):
    return f"{step} allocate t{thread} c{actor} e{entry} n{number} {base:08x} {length} {live}"


def freed(step, thread, actor, entry, number, base, length, live):
    return f"{step} free t{thread} c{actor} e{entry} n{number} {base:08x} {length} {live}"
