#!/usr/bin/env python3
"""Whether a page of HTML stands alone and can be read aloud: what page.py writes must.

    alone.py < PAGE

All elements are closed, no script is in it, nothing in it comes from elsewhere, each link leads to a part of it; its
language, a title, one first heading and no heading that skips a level; each table has a caption and each head cell a
scope, each picture a title and a description. It prints `stands alone`, or what is wrong, with status 1.
"""
import html.parser
import sys

VOID = {"meta", "br", "hr", "img", "link", "input"}
FROM_ELSEWHERE = {"script", "link", "iframe", "object", "embed", "img"}
OUTSIDE = {"src", "srcset", "action", "data", "style"}
NAMESPACE = "http://www.w3.org/2000/svg"


class Reader(html.parser.HTMLParser):
    def __init__(self):
        super().__init__()
        self.open, self.faults, self.ids, self.links, self.levels = [], [], [], [], []
        self.seen = []

    def handle_starttag(self, name, attributes):
        row = dict(attributes)
        self.seen.append(name)
        self.ids += [row["id"]] if "id" in row else []
        self.links += [row["href"]] if "href" in row else []
        self.levels += [int(name[1])] if name[0] == "h" and name[1:].isdigit() else []
        self.faults += [f"{name} has {key}={value}" for key, value in attributes
                        if key in OUTSIDE or key.startswith("on") or "//" in (value or "") and value != NAMESPACE]
        self.faults += [f"a {name}"] if name in FROM_ELSEWHERE else []
        self.faults += ["no language"] if name == "html" and "lang" not in row else []
        self.faults += ["a head cell without scope"] if name == "th" and "scope" not in row else []
        named = {"role", "aria-labelledby", "aria-describedby"} <= set(row)
        self.faults += ["a picture without a name"] if name == "svg" and not named else []
        if name == "caption" and self.open[-1] != "table":
            self.faults.append("a caption outside a table")
        if name not in VOID:
            self.open.append(name)

    def handle_endtag(self, name):
        if not self.open or self.open.pop() != name:
            self.faults.append(f"{name} isn't closed where it should be")

    def handle_data(self, text):
        if self.open[-1:] == ["style"] and ("url(" in text or "@import" in text):
            self.faults.append("a style from elsewhere")


def faults(text):
    reader = Reader()
    reader.feed(text)
    yield from reader.faults
    yield from (f"{name} isn't closed" for name in reader.open)
    yield from (f"{link} leads nowhere" for link in reader.links if link.removeprefix("#") not in reader.ids)
    yield from (f"two parts {name}" for name in set(reader.ids) if reader.ids.count(name) > 1)
    skips = any(after > before + 1 for before, after in zip(reader.levels, reader.levels[1:]))
    if reader.levels.count(1) != 1 or skips:
        yield "headings skip a level"
    count = reader.seen.count
    if count("caption") != count("table"):
        yield "a table without a caption"
    if count("title") != 1 + count("svg") or count("desc") != count("svg"):
        yield "a title is missing"


if __name__ == "__main__":
    found = list(faults(sys.stdin.read()))
    print("\n".join(found) or "stands alone")
    sys.exit(1 if found else 0)
