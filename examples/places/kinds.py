"""Which kind of file some bytes look like, and which words take one: for who gave a file in another's place."""
import re

from places.rules import FORMS

TAKES = {"a description": "audit DESC, run DESC LIMIT, check DESC POLICY",
         "an image": "runimage IMAGE LIMIT, upgrade IMAGE", "a policy": "check DESC POLICY",
         "a script": "run DESC LIMIT SCRIPT"}
SCRIPT = re.compile(rb"[0-9]+ [^ \n]+ [0-9]+\r?\n")


def kind_of(data):
    """What bytes look like, or None."""
    if data.startswith(b"CTFW"):
        return "an image"
    if data.lstrip()[:1] == b"{":
        return "a description"
    if data.split(b" ", 1)[0].decode("ascii", "replace") in FORMS:
        return "a policy"
    return "a script" if SCRIPT.match(data) else None


def taken_for(wanted, data):
    """A hint where a file looks like one of another kind than the one that is wanted."""
    kind = kind_of(data)
    return [f"it looks like {kind}: {TAKES[kind]}"] if kind not in (None, wanted) else []
