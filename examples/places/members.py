"""JSON with the place of each part: values as nodes, and where a text is none, by the rules of capfw's reader."""
import re

DEEPEST = 127  # lists and objects inside one another
NUMBER = re.compile(r"-?(0|[1-9][0-9]*)(\.[0-9]+)?([eE][+-]?[0-9]+)?")
PLAIN = re.compile(r'[^"\\\x00-\x1f]+')  # what stands for itself in a text
ESCAPES = {'"': '"', "\\": "\\", "/": "/", "b": "\b", "f": "\f", "n": "\n", "r": "\r", "t": "\t"}
WORDS = {"true": True, "false": False, "null": None}
BLANK = " \t\r\n"
SEEN = 20  # characters of a stray word that are looked at


class NoJson(Exception):
    """Where a text stops being JSON, and why."""

    def __init__(self, at, why):
        super().__init__(why)
        self.at, self.why = at, why


class Node:
    """A value: its kind, its range in the text, and what it is. An object's members are by their names, the last one
    of a name; each has the range of its name and its value. `twice` has each name that stands there again, with the
    range of the name before and its own."""

    def __init__(self, kind, start, end, value, twice=()):
        self.kind, self.start, self.end, self.value, self.twice = kind, start, end, value, twice

    def get(self, name):
        """The value of a member, or None."""
        return self.value[name][1] if self.kind == "object" and name in self.value else None

    def name_range(self, name):
        return self.value[name][0]

    def items(self, name):
        """The elements of the list at a member; none where there is no such list."""
        node = self.get(name)
        return node.value if node is not None and node.kind == "list" else []

    def text(self, name):
        """The text at a member, or the empty text."""
        node = self.get(name)
        return node.value if node is not None and node.kind == "text" else ""

    def number(self):
        """The integer that a number is, where it is written without sign, point and exponent and fits 64 bits."""
        plain = self.kind == "number" and re.fullmatch("[0-9]+", self.value)
        return int(self.value) if plain and int(self.value) < 2 ** 64 else None


class Reader:
    def __init__(self, text):
        self.text, self.depth = text, 0

    def skip(self, at):
        while at < len(self.text) and self.text[at] in BLANK:
            at += 1
        return at

    def peek(self, at):
        return self.text[at] if at < len(self.text) else ""

    def fail(self, at, why):
        raise NoJson(min(at, len(self.text)), "the text ends too early" if at >= len(self.text) else why)

    def value(self, at):
        at = self.skip(at)
        character = self.peek(at)
        if character in ("{", "["):
            self.depth += 1
            if self.depth > DEEPEST:
                self.fail(at, f"this nests more than {DEEPEST} deep")
            node = self.members(at) if character == "{" else self.elements(at)
            self.depth -= 1
            return node
        if character == '"':
            text, end = self.string(at)
            return Node("text", at, end, text)
        number = NUMBER.match(self.text, at)
        if number:
            return self.number(at, number)
        word = re.match("[a-z]+", self.text[at:at + SEEN])
        if word and word.group() in WORDS:
            return Node(word.group(), at, at + len(word.group()), WORDS[word.group()])
        return self.fail(at, self.stray(at))

    def stray(self, at):
        """Why no value begins here."""
        rest = self.text[at:at + SEEN] or " "
        if rest.startswith(("//", "/*", "#")):
            return "JSON has no comments"
        if rest[0] == "'":
            return 'texts stand in double quotes (")'
        if rest[0] in "]}":
            return "a value is wanted before this; a comma after the last one must go"
        if re.match("[A-Za-z_]", rest):
            return "a text stands in double quotes"
        if re.match(r"[+.]", rest):
            return "a number begins with a digit"
        return "no value begins so"

    def number(self, at, match):
        after = self.peek(match.end())
        if re.match("[0-9A-Za-z_.]", after):
            hexadecimal = re.match("0[xX][0-9a-fA-F]+", self.text[at:])
            value = f": write {int(hexadecimal.group(), 16)}" if hexadecimal else ""
            self.fail(match.end(), f"a number is decimal, without leading zeros{value}")
        if match.group(2) or match.group(3):
            if float(match.group()) in (float("inf"), float("-inf")):
                self.fail(at, "a number this large can't be read")
        return Node("number", at, match.end(), match.group())

    def string(self, at):
        out, at = [], at + 1
        while True:
            character = self.peek(at)
            if character == "":
                self.fail(at, "")
            if character == '"':
                return "".join(out), at + 1
            if character < " ":
                self.fail(at, "a text doesn't go on over a line's end" if character in "\r\n" else
                          "a control character in a text is written with a backslash")
            if character != "\\":
                plain = PLAIN.match(self.text, at)
                out.append(plain.group())
                at = plain.end()
                continue
            piece, at = self.escape(at)
            out.append(piece)

    def unit(self, at):
        """The 16 bits that \\uXXXX stands for, or None."""
        match = re.compile(r"\\u([0-9a-fA-F]{4})").match(self.text, at)
        return int(match.group(1), 16) if match else None

    def escape(self, at):
        following = self.peek(at + 1)
        if following in ESCAPES and following:
            return ESCAPES[following], at + 2
        first = self.unit(at)
        if first is None:
            self.fail(at, 'a backslash stands before one of "\\/bfnrt or u and four hexadecimal digits')
        if not 0xD800 <= first <= 0xDFFF:
            return chr(first), at + 6
        second = self.unit(at + 6)
        if first > 0xDBFF or second is None or not 0xDC00 <= second <= 0xDFFF:
            self.fail(at, "half of a pair of surrogates")
        return chr(0x10000 + (first - 0xD800 << 10) + second - 0xDC00), at + 12

    def elements(self, start):
        out, at = [], self.skip(start + 1)
        if self.peek(at) == "]":
            return Node("list", start, at + 1, out)
        while True:
            out.append(self.value(at))
            at = self.skip(out[-1].end)
            if self.peek(at) == "]":
                return Node("list", start, at + 1, out)
            if self.peek(at) != ",":
                self.fail(at, "a comma or ] is wanted here")
            at = self.skip(at + 1)

    def members(self, start):
        out, twice, at = {}, [], self.skip(start + 1)
        if self.peek(at) == "}":
            return Node("object", start, at + 1, out)
        while True:
            if self.peek(at) != '"':
                self.fail(at, "a comma after the last member must go" if self.peek(at) == "}" else
                          self.stray(at) if self.peek(at) in ("'", "/", "#") else
                          "a member's name in double quotes is wanted here")
            name, end = self.string(at)
            colon = self.skip(end)
            if self.peek(colon) != ":":
                self.fail(colon, "a colon is wanted after a member's name")
            node = self.value(colon + 1)
            twice += [(name, out[name][0], (at, end))] if name in out else []
            out[name] = ((at, end), node)
            at = self.skip(node.end)
            if self.peek(at) == "}":
                return Node("object", start, at + 1, out, twice)
            if self.peek(at) != ",":
                self.fail(at, "a comma or } is wanted here")
            at = self.skip(at + 1)


def parse(text):
    """The value of a text; NoJson where it has none."""
    stray = re.search("[\udc80-\udcff]", text)
    if stray:
        raise NoJson(stray.start(), "this byte is of no character in UTF-8")
    if text.startswith("\ufeff"):
        raise NoJson(0, "the file begins with a byte order mark: store it without")
    reader = Reader(text)
    node = reader.value(0)
    end = reader.skip(node.end)
    if end < len(text):
        raise NoJson(end, "JSON has no comments" if text[end] in "/#" else "something stands after the end")
    return node
