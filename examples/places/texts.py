"""A file's text with its lines and columns, and what is found at a place of it."""
import bisect
import difflib
import re
from dataclasses import dataclass, field

WIDTH = 100  # columns of a line that are shown
LIKENESS = 0.65  # of a name that may be meant, from 0 to 1
MOST_NAMES = 16  # that a hint lists


class Text:
    """A file: its bytes, and its text, in which each byte that isn't of a character in UTF-8 is one of its own."""

    def __init__(self, file, data):
        self.file, self.data = file, data
        self.text = data.decode("utf-8", "surrogateescape")
        self.starts = [0] + [match.end() for match in re.finditer("\n", self.text)]

    @classmethod
    def read(cls, file):
        with open(file, "rb") as opened:
            return cls(file, opened.read())

    def place(self, at):
        """Line and column of a character, both from 1."""
        line = bisect.bisect_right(self.starts, at)
        return line, at - self.starts[line - 1] + 1

    def line(self, number):
        """A line without its line feed, by its number from 1; empty where there is none."""
        if not 1 <= number <= len(self.starts):
            return ""
        start = self.starts[number - 1]
        end = self.starts[number] - 1 if number < len(self.starts) else len(self.text)
        return self.text[start:end]

    def at(self, line, column):
        """The character at a line and a column, both from 1, as a place of the text."""
        return self.starts[min(line, len(self.starts)) - 1] + column - 1

    def lines(self):
        """The lines; what stands behind the last line feed is one where it isn't empty."""
        all_lines = [self.line(number + 1) for number in range(len(self.starts))]
        return all_lines if all_lines[-1] else all_lines[:-1]


@dataclass
class Found:
    """What is at fault: a range of a text, or of a file's bytes where the text is None; its name; what is wrong."""
    text: Text
    start: int
    end: int
    member: str
    says: str
    hints: list = field(default_factory=list)

    def head(self):
        """FILE:LINE:COLUMN, or the byte of an image."""
        if isinstance(self.text, Text):
            return f"{self.text.file}:{':'.join(map(str, self.text.place(self.start)))}"
        return f"{self.text} byte {self.start}"

    def lines(self):
        yield f"{self.head()}: {self.member + ': ' if self.member else ''}{self.says}"
        if isinstance(self.text, Text):
            yield from marked_line(self.text, self.start, self.end)
        for hint in self.hints:
            yield "    " + hint


def printable(text):
    """A text in which what can't be printed is a blank or a mark of its own."""
    return "".join(" " if character == "\t" else character if character.isprintable() else "?" for character in text)


def marked_line(text, start, end):
    """The line of a range and marks under it; of a long line the part around it."""
    number, column = text.place(start)
    line, first = text.line(number), 0
    if len(line) > WIDTH:
        first = max(0, min(column - 1 - WIDTH // 3, len(line) - WIDTH))
    marks = max(1, min(end - start, len(line) - column + 1, WIDTH - (column - 1 - first)))
    if line.strip():
        yield "    " + printable(line[first:first + WIDTH]).rstrip()
        yield "    " + " " * (column - 1 - first) + "^" * marks


def near(word, names):
    """The name that is most like a word, or None."""
    found = difflib.get_close_matches(word.lower(), [name.lower() for name in names], 1, LIKENESS)
    return next((name for name in names if found and name.lower() == found[0]), None)


def meant(word, names, what=None):
    """Hints: the name that was meant, or else, after a word for them, which names there are."""
    names = list(dict.fromkeys(names))
    close = near(word, names)
    if close is not None:
        return [f'did you mean "{close}"?']
    if what is None or not names:
        return []
    return [f"{what}: {', '.join(names[:MOST_NAMES])}{', ..' if len(names) > MOST_NAMES else ''}"]
