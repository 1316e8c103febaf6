"""Where in a description each step of a path is: why one owner reaches the next (docs/use/report.md, "Reach")."""
from places.linking import entries


class Hops:
    """The steps of paths of one description."""

    def __init__(self, d):
        self.d = d
        self.numbers = {id(node): number for number, (what, node, _) in enumerate(entries(d)) if " import " in what
                        or " export " in what}

    def rows(self, owner, inner):
        """The elements of an owner's list with their paths."""
        part = self.d.owner(owner)
        return [(node, f"{part.path}.{inner}[{index}]") for index, node in enumerate(part.node.items(inner))]

    def found(self, row, says, *hints):
        node, path = row
        return self.d.found(node, path, f"entry {self.numbers[id(node)]}: {says}", *hints)

    def at(self, row):
        line, column = self.d.text.place(row[0].start)
        return f"{self.d.text.file}:{line}:{column}"

    def export(self, name):
        owner, export = name.split(".")
        return next(row for row in self.rows(owner, "exports") if row[0].text("name") == export)

    def is_library(self, name):
        return name in self.d.names("libraries")

    def imported(self, library, owner):
        """An owner imports code of a library."""
        for row in self.rows(owner, "imports"):
            if row[0].text("library").split(".")[0] == library:
                yield self.found(row, f"{owner} imports {row[0].text('library')}, which runs with its authority")

    def called(self, caller, callee):
        """A compartment calls another one, and the call passes capabilities."""
        for row in self.rows(caller, "imports"):
            name = row[0].text("call")
            if name.split(".")[0] == callee and self.export(name)[0].text("passes") != "data":
                unsaid = "" if self.export(name)[0].get("passes") else ", which doesn't say `passes`"
                yield self.found(row, f"{caller} calls {name}, which passes capabilities",
                                 f"{self.at(self.export(name))} is the export{unsaid}: "
                                 '"passes": "data" keeps them apart')

    def shared(self, first, second):
        """Two compartments hold one object, both with capabilities in it."""
        ours, theirs = ([row for row in self.rows(owner, "imports") if row[0].text("shared")
                         and "C" in row[0].text("rights")] for owner in (first, second))
        for row in ours:
            for other in theirs:
                if row[0].text("shared") == other[0].text("shared"):
                    yield self.found(row, f"{first} and {second} hold {row[0].text('shared')}, both with capabilities",
                                     f"{self.at(other)} is entry {self.numbers[id(other[0])]}, {second}'s: rights "
                                     "without C at one of them keep them apart")

    def hop(self, first, second):
        """Why the second of two neighbours on a path follows the first: at the first import that says so."""
        if self.is_library(first):
            return list(self.imported(first, second))[:1]
        return [*self.called(first, second), *self.called(second, first), *self.shared(first, second)][:1]

    def path(self, names):
        return [found for pair in zip(names, names[1:]) for found in self.hop(*pair)]
