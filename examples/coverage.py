"""Which lines of sources no step reached, for step.py."""
import collections

from plain import place_name


class Coverage:
    """A watcher of a run that keeps the addresses of which something was executed."""

    def __init__(self, firmware):
        self.firmware, self.reached = firmware, set()

    def before(self, machine, moment):
        self.reached.add(moment.pcc.address)

    def after(self, machine, moment, lines):
        pass

    def came(self, machine, device, byte):
        pass

    def lines(self):
        """Each line of a text, or word of one that has no source, once: where it stands, and whether it was reached."""
        found = {}
        for at, place in sorted(self.firmware.places.items()):
            key = place.owner, place.file, place.line or at
            found.setdefault(key, [place, False])
            found[key][1] |= at in self.reached
        return list(found.values())

    def rest(self):
        """The lines that weren't reached, and how many of each owner's were."""
        counts = collections.OrderedDict()
        for place, reached in self.lines():
            count = counts.setdefault(place.owner, [0, 0])
            count[0] += reached
            count[1] += 1
            if not reached:
                where = f"{place.file}:{place.line}" if place.file else place.owner
                yield f"{where} {place_name(place)}: {place.statement or 'a word'}"
        for owner, (reached, whole) in counts.items():
            yield f"{owner}: {reached} of {whole} reached"
