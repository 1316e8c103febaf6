"""What a picture of a report shows: cards with rows, their colours, and what lines mean."""
import svg
from reports import text

ROW, TITLE, GAP, MARGIN, TOP = 18, 28, 24, 24, 74
NUMBER_WIDTH, PADDING = 34, 12
LANE, GUTTER, RIGHT_GUTTER, PORT = 11, 34, 120, 10
DARK, GREY, RED = "#1f2328", "#57606a", "#b3261e"
# the colour and the width of each kind of line
DATA, CAPABILITIES, DEVICE = ("#1f5fa8", 1.3), ("#6a1b9a", 3), ("#8a6100", 1.5)
LIBRARY, OFF, SEALED, THREAD = ("#57606a", 1.3), ("#b3261e", 1.6), ("#57606a", 1.3), ("#1f2328", 1.3)
ALONE = "#f3f4f6"
COLOURS = ["#d6e6f7", "#fde2c4", "#d9f0d3", "#e8dbf5", "#fbd5dc", "#cfeeee", "#f4efb8", "#e3d9cf"]
SERVICES_WIDTH = 34
LEGEND_WIDTH, LEGEND_COLUMN = 640, 330


class Card:
    """A box with a title and rows; each row has an entry's number, or none, and a text."""

    def __init__(self, title, below, rows, fill, stroke="#8c959f"):
        self.title, self.below, self.rows, self.fill, self.stroke = title, below, rows, fill, stroke
        self.width = max([svg.width_of(title, 13) + 2 * PADDING, svg.width_of(below, 10) + 2 * PADDING] +
                         [svg.width_of(line, 11) + NUMBER_WIDTH + 2 * PADDING for _, line in rows])
        self.height = TITLE + (14 if below else 0) + ROW * len(rows) + (6 if rows or below else 0)
        self.x = self.y = 0

    def row_y(self, number):
        """The middle of the row of an entry."""
        index = [row for row, _ in self.rows].index(number)
        return self.y + TITLE + (14 if self.below else 0) + ROW * index + ROW / 2 - 1

    @property
    def right(self):
        return self.x + self.width

    def drawn(self):
        yield svg.box(self.x, self.y, self.width, self.height, self.fill, self.stroke)
        yield svg.text(self.x + PADDING, self.y + 19, self.title, 13, DARK, "bold")
        if self.below:
            yield svg.text(self.x + PADDING, self.y + 34, self.below, 10, GREY)
        for n, (number, line) in enumerate(self.rows):
            at = self.y + TITLE + (14 if self.below else 0) + ROW * n + 12
            if number:
                yield svg.text(self.x + PADDING + 22, at, str(number), 10, GREY, anchor="end")
            off = "interrupts off" in line
            colour, weight = (RED, "bold") if off else (DARK, "")
            yield svg.text(self.x + PADDING + NUMBER_WIDTH - 4, at, line, 11, colour, weight)


# ---- what is drawn

def folded(words):
    """Words in lines that are no wider than a list of services may be."""
    lines = [""]
    for word in words:
        if lines[-1] and len(lines[-1]) + len(word) > SERVICES_WIDTH:
            lines.append("")
        lines[-1] += (" " if lines[-1] else "") + word
    return lines


def rows_of(report, owner):
    """What an owner holds but its code, globals and the switcher's slot, as rows; its services in few of them."""
    services = [entry["of"] for entry in report.of_kind("service", owner=owner) if entry["of"] != "switch"]
    entries = report.of_kind("device", "shared", "sealed", "call", "library", "quota", "key", "export", owner=owner)
    rows = [(entry["number"], text(entry)) for entry in entries]
    first = next((n for n, entry in enumerate(entries) if entry["kind"] in ("quota", "key", "export")), len(entries))
    listed = folded(["services" if len(services) > 1 else "service", *services]) if services else []
    return rows[:first] + [(None, line) for line in listed] + rows[first:]


def fills(report):
    """The colour of each compartment: one for all that share, grey where one is alone."""
    groups = []
    for name in report.compartments:
        group = report.component(name)
        if len(group) > 1 and group not in groups:
            groups.append(group)
    return {name: next((COLOURS[n % len(COLOURS)] for n, group in enumerate(groups) if name in group), ALONE)
            for name in report.compartments}


def right_cards(report):
    """The devices, the objects that somebody holds, and the libraries, by kind and name."""
    cards = {}
    for device in report.devices:
        cards["device", device["name"]] = Card(device["name"], f"{device['kind']} at {device['base']:#010x}", [],
                                               "#fff8e1", "#b08800")
    for entry in report.of_kind("shared", "sealed"):
        kind = "shared object" if entry["kind"] == "shared" else f"sealed object of type {entry['type']}"
        cards[entry["kind"], entry["of"]] = Card(entry["of"], f"{kind}, {entry['length']} bytes", [], "#ffffff")
    for name in report.libraries:
        cards["library", name] = Card(name, "library", rows_of(report, name), "#ffffff")
    return cards


def words(report):
    """The picture in words: a list of sentences."""
    gates = [(thread["name"], report.entry[thread["entry"]]) for thread in report.threads]
    lines = [f"Thread {name} begins in {gate['owner']}." for name, gate in gates]
    for owner in report.owners:
        held = [line for _, line in rows_of(report, owner)]
        lines.append(f"{owner} has {'; '.join(held) if held else 'nothing but its code'}.")
    groups = {tuple(report.component(name)) for name in report.compartments}
    lines += [f"{', '.join(group)} share." for group in sorted(groups) if len(group) > 1]
    return lines


def legend_of(report, y):
    """What the lines and colours that a picture has mean, and where it ends."""
    kinds = {entry["kind"] for entry in report.entries}
    passes = {report.export(entry["of"])["passes"] for entry in report.of_kind("call")}
    passes |= {"capabilities" if "MC" in entry["rights"].split() else "data" for entry in report.of_kind("shared")}
    postures = {report.export(entry["of"])["posture"] for entry in report.of_kind("library")}
    rows = [(report.threads, THREAD, "1,3", "a thread begins here"),
            ("capabilities" in passes, CAPABILITIES, "", "capabilities pass: both sides share"),
            ("data" in passes, DATA, "", "plain data pass"),
            ("device" in kinds, DEVICE, "", "a device is read or written, as heads point"),
            ("sealed" in kinds, SEALED, "2,3", "a sealed object is held"),
            (postures - {"disabled"}, LIBRARY, "5,3", "a library's code is run"),
            ("disabled" in postures, OFF, "5,3", "a library's code is run with interrupts off")]
    parts = [svg.path(f"M{MARGIN},{svg.number(y)} H{LEGEND_WIDTH}", "#d0d7de", 1)]
    shown = [row[1:] for row in rows if row[0]]
    for n, (style, dash, line) in enumerate(shown):
        x, at = MARGIN + LEGEND_COLUMN * (n % 2), y + 20 + 17 * (n // 2)
        parts.append(svg.path(f"M{x},{svg.number(at)} h26", *style, dash))
        parts.append(svg.head(x + 33, at, 1, style[0]))
        parts.append(svg.text(x + 42, at + 4, line, 10, GREY))
    end = y + 20 + 17 * -(-len(shown) // 2)
    shares = "compartments of one colour share; " if report.edges else ""
    parts.append(svg.text(MARGIN, end + 4, shares + "numbers are those of the report's entries", 10, GREY))
    return parts, end + 16


def headings(report, left, right):
    """The lines above a picture, whose compartments and whose cards on the right begin there."""
    yield svg.text(MARGIN, 28, f"firmware {report.firmware}", 16, DARK, "bold")
    yield svg.text(MARGIN, 45, f"{len(report.entries)} entries, heap {report.heap['length']} bytes, a tick each "
                   f"{report.quantum} steps", 10, GREY)
    kinds = [("devices", report.devices), ("objects", report.of_kind("shared", "sealed")), ("libraries",
             report.libraries)]
    for x, line in ((MARGIN, "threads" if report.threads else ""), (left, "compartments"),
                    (right, ", ".join(name for name, rows in kinds if rows))):
        yield svg.text(x, 63, line, 10, GREY)
