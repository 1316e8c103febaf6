"""The public surface: the calls and types that the crates are there for, each as its source has it."""
import re

from . import pages, sources

PAGE = "docs/checks/surface.py"
DECISIONS = "decisions.md"

# by crate: what each is there for; a name that isn't public there is a fault
SURFACE = {
    "def_refusals": "NoMemory",
    "ct_bits": "field sign align_up",
    "ct_perm": "Perms Perms::pack Perms::unpack Perms::normal Perms::within",
    "ct_bounds": "Bounds Rounded decode least round_length align_mask",
    "ct_cap": "Cap Shadow Live Trap Posture expand shrink set_address add_address set_bounds set_bounds_exact and_perms "
              "seal unseal clear_tag subset same",
    "ct_isa": "Instr decode encode",
    "ct_alu": "alu",
    "ct_capstep": "capstep",
    "def_source": "AsmFault Statement Part",
    "ct_source": "Program CompactStatement CompactPart CompactTarget CompactNumber statements",
    "ct_asm": "Object Names undeclared assemble Object::of_text Object::find",
    "ct_entry": "Owner Comp Kind Entry Mode Gate Entries Act Deed Owned Happened End Totals DeviceKind Device "
                "Devices",
    "ct_mem": "Memory Memory::size Memory::load Memory::store Memory::load_cap Memory::store_cap Memory::zero "
              "Memory::mark Memory::marked Memory::next_tagged Plain Plain::new",
    "ct_planes": "Planes Planes::new Planes::bytes Planes::tag_words Planes::mark_words",
    "ct_bus": "Bus Bus::new Bus::read Bus::write Bus::input Bus::holds",
    "ct_flow": "Flow flow",
    "ct_loadstore": "Map Moved loadstore",
    "ct_graph": "Graph Path Graph::of Graph::reaches Graph::path",
    "ct_licence": "licensed off_licensed",
    "ct_layout": "Sizes Places Region LayoutFault place",
    "ct_tables": "ImportRow ExportRow SlotKind write_import read_import write_export read_export",
    "ct_image": "Parts Code Compartment Export Sealed Shared Slot Thread Image ImageFault "
                "Image::of Image::parts Image::upgraded Image::text Image::init write accept",
    "def_desc": "PartWord Ram Passes",
    "ct_desc_rows": "Desc Compartment Library Export LibraryExport Import LibraryImport Quota Shared Sealed Thread Code At",
    "ct_desc": "DescFault read",
    "ct_link": "Sources LinkFault link",
    "ct_entries": "entries",
    "ct_report": "text",
    "ct_gen": "Generated generate",
    "ct_script": "Script Given ScriptFault read Script::at",
    "ct_policy": "Rules PolicyFault read broken",
    "ct_heap": "Heap Object Found HeapRefusal NotWhole Heap::new Heap::lay Heap::allocate Heap::free Heap::remaining "
               "Heap::quarantined Heap::paint Heap::flush Heap::find",
    "ct_token": "Tokens Tokens::new Tokens::add_key Tokens::add_token Tokens::drop_row Tokens::is_key Tokens::opens opened",
    "ct_revoke": "Front sweep_all Front::idle Front::running Front::at Front::begin Front::slice Front::finished Front::end",
    "ct_switch": "Thread Area First Fresh Called Thread::new save resume call return_to_caller end_with",
    "ct_handler": "Start record_at write_record fresh answer",
    "ct_sched": "Sched Status Sched::new Sched::pick Sched::tick Sched::sleep Sched::wait Sched::wake Sched::end "
                "Sched::status",
    "ct_boot": "First boot thread_start",
    "ct_machine": "Machine Event Machine::start Machine::lawful Machine::advance Machine::ended Machine::totals",
    "ct_trace": "Line line summary",
    "ct_top": "Status capfw ready",
    "ct_port": "Folder Sink ReadError WriteFailed Folder::read Sink::write",
}

# what has a form that asks why: a few words, and the heading of the decisions that says it
SURFACE_WORDS = {
    "ct_bits::align_up": ("any multiple", "capabilities-in-the-program"),
    "ct_perm::Perms::pack": ("of any set", "capabilities-in-the-program"),
    "ct_cap::Cap": ("a plain struct", "capability-words"),
    "ct_cap::Live": ("seen as its word", "capabilities-in-the-program"),
    "ct_source::Program": ("borrows its text", "the-public-surface"),
    "ct_source::CompactStatement": ("few bytes", "the-public-surface"),
    "ct_asm::Names": ("keeps bytes", "the-public-surface"),
    "ct_asm::assemble": ("any number of slots", "instructions-and-the-assembler"),
    "ct_mem::Memory::next_tagged": ("and below another offset", "the-public-surface"),
    "ct_revoke::sweep_all": ("no heap's range", "the-public-surface"),
    "ct_revoke::Front::slice": ("no heap's range", "the-public-surface"),
    "ct_sched::Status": ("for how long and for what", "the-public-surface"),
    "ct_switch::Thread": ("made in a crate below", "the-public-surface"),
    "ct_switch::return_to_caller": ("its name", "the-public-surface"),
    "ct_handler::Start": ("its name", "the-public-surface"),
    "ct_token::opened": ("nothing is left to seal", "the-public-surface"),
    "ct_trace::line": ("no condition", "the-public-surface"),
    "ct_policy::read": ("of the image alone", "the-public-surface"),
    "ct_entries::entries": ("two crates", "crates-that-stand-between"),
    "ct_report::text": ("two crates", "crates-that-stand-between"),
    "ct_loadstore::loadstore": ("asks less than it might", "the-machine"),
    "ct_machine::Machine": ("what its type keeps", "the-machine"),
}


def place_of(crate, name, seen=()):
    """The crate that has this public name of a crate, which may hand it on from another."""
    here = sources.crates()[crate]
    head = name.partition("::")[0]
    if name in here.items and here.items[name].public:
        return crate
    for line in re.findall(r"^pub use ([^;]+);", sources.text_of(f"crates/{crate}/src/lib.rt"), re.M):
        other = line.partition("::")[0]
        if other in sources.crates() and other not in seen and re.search(rf"\b{head}\b", line):
            return place_of(other, name, seen + (crate,))
    return None


def lines_from(item):
    return sources.text_of(item.file).split("\n")[item.line - 1:]


def flat(lines):
    """Source lines as one, without comments, attributes and the breaks of lines."""
    kept = [line.strip() for line in lines if not line.strip().startswith(("///", "//", "#["))]
    text = re.sub(r"\s+", " ", " ".join(kept)).strip()
    return re.sub(r",? ([)}\]])", r"\1", re.sub(r"([({\[]) ", r"\1", text)).replace(",)", ")")


def signature(item):
    """A function's, from its name to what it answers."""
    taken = []
    for line in lines_from(item):
        if line.strip().startswith(("requires ", "ensures ", "{", "decreases ")):
            break
        taken.append(line)
        if line.rstrip().endswith(("{", ";")) or line.rstrip().endswith("{}"):
            break
    text = re.sub(r"\s*(\{\}?|;)$", "", flat(taken))
    text = re.sub(r"^(pub )?(const )?fn \w+", "", text)
    return item.path + text


def body(item):
    """What stands in a type's braces or brackets; None where the line ends it."""
    taken = []
    for line in lines_from(item):
        taken.append(line)
        if line.startswith("}") or line.rstrip().endswith(";"):
            break
    return flat(taken)


def members(text):
    """The parts of a list that no bracket holds together."""
    parts, depth, last = [], 0, ""
    for letter in text:
        depth += letter in "({[<"
        depth -= letter in ")}]>"
        if letter == "," and depth == 0:
            parts.append(last.strip())
            last = ""
        else:
            last += letter
    return [part for part in parts + [last.strip()] if part]


def type_told(item):
    """A type with its public fields or its variants."""
    text = body(item)
    name = item.path
    if item.kind == "trait":
        return f"trait {name}"
    if item.kind == "type":
        return "type " + text.removeprefix("pub type ").rstrip(";")
    found = re.match(r"pub (?:struct|enum) \w+(?P<more><[^({]*>)? ?(?P<inside>[({].*[)}])?;?$", text)
    more = found["more"] or ""
    inside = found["inside"] or ""
    parts = members(inside[1:-1].strip())
    if item.kind == "struct":
        shown = [part.removeprefix("pub ") for part in parts if part.startswith("pub ")]
        return f"{name}{more} {inside[0]}{', '.join(shown)}{inside[-1]}" if shown else f"{name}{more}"
    return f"{name}{more}: {', '.join(parts)}"


def told(item):
    return signature(item) if item.kind == "fn" else type_told(item)


def row(crate, name):
    item = sources.crates()[place_of(crate, name)].items[name]
    words = SURFACE_WORDS.get(f"{crate}::{name}")
    why = f"{words[0]} ({DECISIONS}, {words[1]})" if words else ""
    return f"| `{told(item)}` | {why} |"


def of_traits():
    """The names of the calls that the listed traits have."""
    return {name.partition("::")[2] for names in SURFACE.values() for name in names.split()
            if name.partition("::")[0] in ("Memory", "Folder", "Sink")}


def beside(crate):
    """The other public calls of the crate, but those that a trait promises."""
    listed = SURFACE[crate].split()
    promised = of_traits() | {"from", "clone", "of", "next_tagged_below"}
    return [item.path for item in sources.crates()[crate].public_items()
            if item.kind == "fn" and item.path not in listed
            and (item.clauses or item.path.partition("::")[2] not in promised)]


def surface(only=None):
    """The table of each crate, or of these alone, in the order of crates.txt."""
    parts = []
    for crate in sources.crates():
        if crate not in SURFACE or only and crate not in only:
            continue
        names = [name for name in SURFACE[crate].split() if place_of(crate, name)]
        parts += [f"\n## {crate}\n", "| call or type | why so |", "|---|---|"]
        parts += [row(crate, name) for name in names]
        others = beside(crate) if crate.startswith("ct_") else []
        if others:
            parts += ["", "| for the crates above |", "|---|", f"| {', '.join(f'`{name}`' for name in others)} |"]
    return "\n".join(parts).strip() + "\n"


def check_surface(faults):
    """Each name that is listed is public in its crate, and each reason is of one that is listed."""
    for crate, names in SURFACE.items():
        if crate not in sources.crates():
            faults.append(f"{PAGE}: there is no crate {crate}")
            continue
        faults += [f"{PAGE}: {crate} has no public {name}" for name in names.split() if not place_of(crate, name)]
    for name, (_, heading) in SURFACE_WORDS.items():
        crate, _, item = name.partition("::")
        if item not in SURFACE.get(crate, "").split():
            faults.append(f"{PAGE}: {name} isn't listed")
        if heading not in pages.anchors(f"docs/build/{DECISIONS}"):
            faults.append(f"{PAGE}: {DECISIONS} has no heading #{heading}")
