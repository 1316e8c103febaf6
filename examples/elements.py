"""The few elements of a page in HTML that page.py writes, as texts."""
import html

STYLE = """
body { font: 16px/1.5 system-ui, "Segoe UI", "DejaVu Sans", sans-serif; color: #1f2328; background: #fff;
  margin: 0 auto; max-width: 68rem; padding: 1rem 1.5rem 4rem; }
h1 { margin-bottom: 0; } h2 { margin-top: 2.5rem; border-bottom: 1px solid #d0d7de; } h3 { margin-bottom: .25rem; }
nav ul { padding: 0; display: flex; flex-wrap: wrap; gap: .25rem 1.25rem; list-style: none; }
a { color: #0b4f9c; } figure { margin: 1rem 0; } figcaption { color: #57606a; }
svg { max-width: 100%; height: auto; border: 1px solid #d0d7de; border-radius: 6px; }
.wide { overflow-x: auto; } table { border-collapse: collapse; margin: .5rem 0 1rem; }
caption { text-align: left; color: #57606a; padding: .25rem 0; }
th, td { text-align: left; padding: .2rem .9rem .2rem 0; border-bottom: 1px solid #d0d7de; vertical-align: top; }
td { font-family: "DejaVu Sans Mono", Menlo, Consolas, monospace; font-size: .85rem; }
.broken { color: #9a1c13; font-weight: bold; } .kept { color: #14532d; }
summary { cursor: pointer; }
"""


def tag(name, content, **attributes):
    """An element of content that is already HTML."""
    given = "".join(f' {key.rstrip("_").replace("_", "-")}="{html.escape(str(value))}"'
                    for key, value in attributes.items())
    return f"<{name}{given}>{content}</{name}>"


def said(name, content, **attributes):
    """An element of a text."""
    return tag(name, html.escape(str(content)), **attributes)


def row(cells, head=False):
    """A row; a cell is a text, or a text and a class."""
    pairs = [cell if isinstance(cell, tuple) else (cell, "") for cell in cells]
    kind, more = ("th", {"scope": "col"}) if head else ("td", {})
    return tag("tr", "".join(said(kind, content, **dict(more, class_=name) if name else more)
                             for content, name in pairs))


def table(caption, head, rows):
    body = tag("thead", row(head, head=True)) + tag("tbody", "\n".join(map(row, rows)))
    return tag("div", tag("table", said("caption", caption) + body), class_="wide")


def items(lines):
    return tag("ul", "".join(said("li", line) for line in lines))
