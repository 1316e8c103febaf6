"""Two pictures: what stands on what in the proof, and the house, as crates.txt has it."""
from . import sources

HERE = "docs/checks/pictures.py"

BOX, LINE, GAP = 26, 12, 34
STYLE = ("text{font:12px sans-serif;text-anchor:middle}.small{font-size:10px;fill:#555}"
         "rect{fill:#f6f8fa;stroke:#57606a}path{fill:none;stroke:#8c959f}")

# the proof from its claims down: a box, what it says, its crates, the boxes that it stands on
PROOF = (
    ("capfw", "what the program answers", ["ct_top"], ["commands", "advance", "link"]),
    ("commands", "each command's run is licensed and safe", ["law_program"], ["accepted"]),
    ("advance", "the machine does what is written", ["ct_machine"], ["truly", "integrity", "started", "engine"]),
    ("accepted", "so of every accepted image", ["law_accepted"], ["started", "truly", "integrity", "linked"]),
    ("truly", "what is told was done, and all of it", ["law_truly"], ["history"]),
    ("integrity", "what changes, changes for a reason", ["law_integrity"], ["history"]),
    ("secrecy", "a step goes by what its thread sees", ["law_secrecy"], ["events"]),
    ("history", "calls clean, no use after free, a sweep before reuse", ["law_history"], ["events"]),
    ("started", "what a sound image boots is confined", ["law_started"], ["confined", "boot"]),
    ("linked", "what is linked is faultless", ["law_link"], ["image"]),
    ("link", "description and sources to an image", ["ct_link"], ["linked"]),
    ("events", "each event keeps *Confined*", ["law_events"], ["moves"]),
    ("moves", "each kind of change keeps it", ["law_moves"], ["confined", "step", "words"]),
    ("engine", "threads and heap over memory", ["ct_engine"], ["step"]),
    ("confined", "the invariant", ["def_confined"], ["step"]),
    ("step", "the written machine", ["def_machine", "def_step"], ["words"]),
    ("boot", "entries, and what boots", ["def_boot"], ["image"]),
    ("image", "what an image is", ["def_image"], []),
    ("words", "capability words", ["def_words", "law_words"], []),
)


def below(crate):
    """All crates that a crate stands on."""
    found, pending = set(), [crate]
    while pending:
        for use in sources.crates()[pending.pop()].uses:
            if use in sources.crates() and use not in found:
                found.add(use)
                pending.append(use)
    return found


def proof_boxes(faults):
    """The boxes of the proof, and their edges, each of which crates.txt has to show."""
    crates_of = {name: crates for name, _, crates, _ in PROOF}
    boxes, edges = {}, []
    for name, text, crates, uses in PROOF:
        lost = [crate for crate in crates if crate not in sources.crates()]
        faults += [f"{HERE}: the picture of the proof names {crate}, which isn't there" for crate in lost]
        boxes[name] = (text.replace("*", ""), ", ".join(crates))
        edges += [(name, use) for use in uses]
        for use in uses:
            if not lost and not any(there in below(crate) for crate in crates for there in crates_of[use]):
                faults.append(f"{HERE}: {', '.join(crates)} doesn't stand on {', '.join(crates_of[use])}")
    return boxes, reduced(edges)


def house_boxes():
    """The sections of crates.txt and which stands on which, without those that others say."""
    count, edges = {}, set()
    for crate in sources.crates().values():
        count[crate.section] = count.get(crate.section, 0) + 1
        edges |= {(crate.section, sources.crates()[use].section) for use in crate.uses if use in sources.crates()}
    edges = {(above, under) for above, under in edges if above != under}
    boxes = {section: (section, f"{number} crate{'s' * (number > 1)}") for section, number in count.items()}
    return boxes, reduced(edges)


def reduced(edges):
    """The edges that no longer way says."""
    under = {}
    for above, below_it in edges:
        under.setdefault(above, set()).add(below_it)

    def reached(start):
        found, pending = set(), list(under.get(start, ()))
        while pending:
            here = pending.pop()
            if here not in found:
                found.add(here)
                pending += under.get(here, ())
        return found

    return sorted((above, to) for above, to in edges
                  if not any(to in reached(other) for other in under[above] if other != to))


def ranks(boxes, edges):
    """How far down each box stands: under all that stand on it."""
    rank = {name: 0 for name in boxes}
    for _ in boxes:
        for above, under in edges:
            rank[under] = max(rank[under], rank[above] + 1)
    return rank


def placed(boxes, edges):
    """The rows of boxes; in a row they go by where what stands on them is."""
    rank = ranks(boxes, edges)
    rows = [[name for name in boxes if rank[name] == row] for row in range(max(rank.values()) + 1)]
    middle = {}
    for row in rows:
        def pull(name):
            above = [middle[other] for other, under in edges if under == name and other in middle]
            return sum(above) / len(above) if above else 0.5
        row.sort(key=pull)
        for k, name in enumerate(row):
            middle[name] = (k + 0.5) / len(row)
    return rows


def svg(boxes, edges):
    rows = placed(boxes, edges)
    wide = {name: max(7 * len(text), 6 * len(small)) + 24 for name, (text, small) in boxes.items()}
    width = max(sum(wide[name] + GAP for name in row) for row in rows)
    places, lines, drawn = {}, [], []
    for number, row in enumerate(rows):
        free = (width - sum(wide[name] for name in row)) / (len(row) + 1)
        left, top = free, number * (BOX + LINE + GAP) + 6
        for name in row:
            places[name] = (left, top)
            middle = left + wide[name] / 2
            text, small = boxes[name]
            drawn.append(f'<rect x="{left:.0f}" y="{top}" width="{wide[name]}" height="{BOX + LINE}" rx="4"/>'
                         f'<text x="{middle:.0f}" y="{top + 16}">{text}</text>'
                         f'<text class="small" x="{middle:.0f}" y="{top + 31}">{small}</text>')
            left += wide[name] + free
    for above, under in edges:
        (x, y), (to, down) = places[above], places[under]
        x, to, y = x + wide[above] / 2, to + wide[under] / 2, y + BOX + LINE
        lines.append(f'<path d="M{x:.0f} {y}C{x:.0f} {y + GAP} {to:.0f} {down - GAP} {to:.0f} {down}"/>')
    height = len(rows) * (BOX + LINE + GAP)
    head = f'<svg xmlns="http://www.w3.org/2000/svg" viewBox="0 0 {width:.0f} {height}" width="{width:.0f}">'
    return "\n".join([head, f"<style>{STYLE}</style>", *lines, *drawn, "</svg>"]) + "\n"


def check_pictures(faults, write):
    """The pictures are as the sources make them."""
    for path, picture in (("docs/claims/proof.svg", svg(*proof_boxes(faults))),
                          ("docs/build/house.svg", svg(*house_boxes()))):
        try:
            same = sources.text_of(path) == picture
        except FileNotFoundError:
            same = False
        if not same and write:
            sources.write(path, picture)
        elif not same:
            faults.append(f"{path}: not as the sources make it (docs/check.py --write does)")
