#!/usr/bin/env python3
"""A picture of a report as SVG, without other programs: who runs where, who calls whom, who holds what.

    capfw audit FIRMWARE.json | picture.py > picture.svg
    capfw audit FIRMWARE.json | picture.py --mermaid

On the left are threads, then compartments with what they hold, each with its entry's number; on the right devices,
objects and libraries. Compartments that share, directly or through others, have one colour. What each line means
stands below the picture. With `--mermaid` it is the graph of sharing.py, with what each compartment and library holds.
"""
import sys

sys.dont_write_bytecode = True
import manners  # noqa: E402
import sharing  # noqa: E402
import svg  # noqa: E402
from cards import (  # noqa: E402
    CAPABILITIES, DARK, DATA, DEVICE, GAP, GREY, GUTTER, LANE, LEGEND_WIDTH, LIBRARY, MARGIN, OFF, PORT, RIGHT_GUTTER,
    ROW, SEALED, THREAD, TOP, Card, fills, headings, legend_of, right_cards, rows_of, words)
from reports import report_read  # noqa: E402


class Picture:
    """The cards of a report at their places, and the lines between them."""

    def __init__(self, report):
        self.report = report
        colours = fills(report)
        self.compartments = {name: Card(name, "", rows_of(report, name), colours[name])
                             for name in report.compartments}
        self.right = right_cards(report)
        self.lines, self.heads = [], []
        self.calls = [(entry, report.export(entry["of"])) for entry in report.of_kind("call")]
        self.place_compartments()
        self.place_right()
        self.place_threads()

    # -- places

    def place_compartments(self):
        at = TOP
        for card in self.compartments.values():
            card.y, at = at, at + card.height + GAP
        self.lanes = self.lanes_of()
        pills = [svg.width_of(thread["name"], 12) for thread in self.report.threads]
        self.pill = max([svg.width_of("priority 15", 9), *pills]) + 24
        left = MARGIN + self.pill + GUTTER + LANE * (1 + max(self.lanes.values(), default=0)) + 14
        widest = max([card.width for card in self.compartments.values()], default=160)
        for card in self.compartments.values():
            card.x, card.width = left, widest
        self.left, self.middle = left, left + widest

    def lanes_of(self):
        """The lane of each call on the left, the first next to the cards: calls in one lane don't meet."""
        taken, lanes = [], {}
        ends = {entry["number"]: sorted((self.row(entry), self.row(gate))) for entry, gate in self.calls}
        for number, (top, bottom) in sorted(ends.items(), key=lambda row: (row[1][1] - row[1][0], row[0])):
            free = (n for n, spans in enumerate(taken)
                    if all(bottom + ROW / 2 < first or last + ROW / 2 < top for first, last in spans))
            lane = next(free, len(taken))
            if lane == len(taken):
                taken.append([])
            taken[lane].append((top, bottom))
            lanes[number] = lane
        return lanes

    def row(self, entry):
        card = self.compartments.get(entry["owner"]) or self.right["library", entry["owner"]]
        return card.row_y(entry["number"])

    def holders(self, key):
        """The entries of compartments that are for a card on the right."""
        kind, name = key
        return [entry for entry in self.report.of_kind(kind) if entry["owner"] in self.compartments and
                (entry["of"].split(".")[0] if kind == "library" else entry["of"]) == name]

    def place_right(self):
        """The cards on the right as near as they can be to the rows that they are joined to."""
        wanted = {}
        for key, card in self.right.items():
            rows = [self.row(entry) for entry in self.holders(key)]
            if key[0] != "library":
                card.height = max(card.height, PORT * (len(rows) + 1))
            wanted[key] = sum(rows) / len(rows) - card.height / 2 if rows else float("inf")
        at = TOP
        for key in sorted(self.right, key=lambda key: wanted[key]):
            card = self.right[key]
            card.y = max(at, wanted[key] if wanted[key] < float("inf") else at)
            at = card.y + card.height + GAP / 2
        widest = max([card.width for card in self.right.values()], default=0)
        for card in self.right.values():
            card.x, card.width = self.middle + RIGHT_GUTTER, widest
        self.end = self.middle + RIGHT_GUTTER + widest

    def place_threads(self):
        """Each thread beside the export that it enters, or as near below as there is room."""
        gates = [self.row(self.report.entry[thread["entry"]]) for thread in self.report.threads]
        self.pills, at = {}, TOP - 16
        for n in sorted(range(len(gates)), key=lambda n: (gates[n], n)):
            at = max(at, gates[n] - 16)
            self.pills[n], at = at, at + 40

    # -- lines

    def line(self, data, style, dash=""):
        self.lines.append(svg.path(data, *style, dash))

    def draw_threads(self):
        for n, thread in enumerate(self.report.threads):
            y, gate = self.pills[n], self.row(self.report.entry[thread["entry"]]) - 3
            start = MARGIN + self.pill
            self.line(svg.curve(start, y + 13, self.left - 6, gate), THREAD, "1,3")
            self.heads.append(svg.head(self.left, gate, 1, THREAD[0]))

    def draw_calls(self):
        for entry, gate in self.calls:
            style = CAPABILITIES if gate["passes"] == "capabilities" else DATA
            lane = self.left - 18 - LANE * self.lanes[entry["number"]]
            ends = self.row(entry), self.row(gate) + 3
            self.line(svg.detour(self.left, ends[0], lane, self.left - 6, ends[1]), style)
            self.heads.append(svg.head(self.left, ends[1], 1, style[0]))

    def draw_right(self):
        for key, card in self.right.items():
            entries = sorted(self.holders(key), key=self.row)
            for n, entry in enumerate(entries):
                if key[0] == "library":
                    self.draw_library(entry)
                else:
                    self.draw_held(entry, card, card.y + card.height * (n + 1) / (len(entries) + 1))

    def draw_held(self, entry, card, port):
        """A line to a device or an object, with a head where what is read or written goes."""
        rights, y = entry["rights"].split(), self.row(entry)
        shared = CAPABILITIES if "MC" in rights else DATA
        style = {"device": DEVICE, "shared": shared, "sealed": SEALED}[entry["kind"]]
        reads, writes = ("LD" in rights, "SD" in rights) if entry["kind"] != "sealed" else (False, False)
        start, end = self.middle + (6 if reads else 0), card.x - (6 if writes else 0)
        self.line(svg.curve(start, y, end, port), style, "2,3" if entry["kind"] == "sealed" else "")
        if reads:
            self.heads.append(svg.head(self.middle, y, -1, style[0]))
        if writes:
            self.heads.append(svg.head(card.x, port, 1, style[0]))

    def draw_library(self, entry):
        gate = self.report.export(entry["of"])
        style = OFF if gate["posture"] == "disabled" else LIBRARY
        x, y = self.right["library", gate["owner"]].x, self.row(gate)
        self.line(svg.curve(self.middle, self.row(entry), x - 6, y), style, "5,3")
        self.heads.append(svg.head(x, y, 1, style[0]))

    def draw_between_libraries(self):
        entries = [entry for entry in self.report.of_kind("library") if entry["owner"] in self.report.libraries]
        for n, entry in enumerate(entries):
            gate = self.report.export(entry["of"])
            style = OFF if gate["posture"] == "disabled" else LIBRARY
            x = self.right["library", gate["owner"]].right
            lane = x + 16 + LANE * n
            self.line(svg.detour(x, self.row(entry), lane, x + 6, self.row(gate)), style, "5,3")
            self.heads.append(svg.head(x, self.row(gate), -1, style[0]))
            self.end = max(self.end, lane)

    # -- the whole

    def pills_drawn(self):
        for n, thread in enumerate(self.report.threads):
            y, middle = self.pills[n], MARGIN + self.pill / 2
            yield svg.box(MARGIN, y, self.pill, 32, "#ffffff", GREY, 16)
            yield svg.text(middle, y + 15, thread["name"], 12, DARK, "bold", "middle")
            yield svg.text(middle, y + 26, f"priority {thread['priority']}", 9, GREY, anchor="middle")

    def drawn(self):
        """The picture's text."""
        self.draw_threads()
        self.draw_right()
        self.draw_between_libraries()
        self.draw_calls()
        cards = [*self.compartments.values(), *self.right.values()]
        bottom = max([card.y + card.height for card in cards] + [y + 32 for y in self.pills.values()])
        legend, height = legend_of(self.report, bottom + GAP)
        above = headings(self.report, self.left, self.middle + RIGHT_GUTTER)
        body = [*above, *self.lines, *(part for card in cards for part in card.drawn()), *self.pills_drawn(),
                *self.heads, *legend]
        width = max(self.end, LEGEND_WIDTH) + MARGIN
        title = f"Authority in firmware {self.report.firmware}"
        return svg.page(width, height, title, " ".join(words(self.report)), body)


def main(words):
    parser = manners.Words(__doc__)
    parser.add_argument("--mermaid", action="store_true")
    options, report = parser.parse_args(words), report_read()[0]
    held = {"owner " + owner: [line for _, line in rows_of(report, owner)] for owner in report.owners}
    drawn = sharing.mermaid(report, lambda point: held.get(point.name, [])) if options.mermaid else \
        [Picture(report).drawn()]
    print("\n".join(drawn))


if __name__ == "__main__":
    manners.run(main)
