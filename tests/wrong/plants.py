"""How a wrong machine is written down."""
from typing import NamedTuple


class Machine(NamedTuple):
    name: str
    what: str       # what the wrong machine does
    edits: list     # (file below crates/, text that stands there once, text in its place)
    crate: str      # the crate of the law that must refuse it, or "" where none does
    law: str        # a public function of it
    clause: str     # the record and field, or why no law refuses it


def wrong(name, what, law, clause, *edits):
    crate, _, function = law.partition("::")
    return Machine(name, what, list(edits), crate, function, clause)
