"""A call of capfw by its words."""
from places import descriptions
from places.texts import Found, Text

# The words of each command, and which of them name files.
FORMS = {
    "audit": ["DESC"], "image": ["DESC"], "run": ["DESC", "LIMIT", "SCRIPT"], "runimage": ["IMAGE", "LIMIT", "SCRIPT"],
    "why": ["DESC", "OWNER", "COMPARTMENT"], "upgrade": ["IMAGE"], "check": ["DESC", "POLICY"], "demo": ["NUMBER"]}
LAST_IS_OPTIONAL = ("run", "runimage")


class Call:
    """A call of capfw by its words."""

    def __init__(self, words):
        self.words = words
        self.named = dict(zip(FORMS.get(words[0], []), words[1:])) if words else {}

    def description(self):
        return descriptions.Description.read(self.named["DESC"])

    def word(self, index, says, hints=()):
        """What is found at a word of the call."""
        text = Text("words", " ".join(self.words).encode("utf-8", "surrogateescape"))
        if index >= len(self.words):
            return Found(text, len(text.text), len(text.text) + 1, "", says, list(hints))
        start = sum(len(word) + 1 for word in self.words[:index])
        return Found(text, start, start + len(self.words[index]), "", says, list(hints))
