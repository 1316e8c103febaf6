"""The few elements of a picture in SVG that picture.py draws with, as texts."""
import html

MONO = "'DejaVu Sans Mono', Menlo, Consolas, 'Liberation Mono', monospace"
# of a monospaced letter: its width in parts of the font's size
LETTER = 0.61
CORNER = 6
HEAD = 8


def number(value):
    return f"{value:.1f}".rstrip("0").rstrip(".")


def width_of(line, size):
    """How wide a line of letters is at a size."""
    return len(line) * size * LETTER


def text(x, y, line, size=11, fill="#1f2328", weight="", anchor=""):
    more = (f' font-weight="{weight}"' if weight else "") + (f' text-anchor="{anchor}"' if anchor else "")
    return f'<text x="{number(x)}" y="{number(y)}" font-size="{size}" fill="{fill}"{more}>{html.escape(line)}</text>'


def box(x, y, width, height, fill, stroke, radius=6):
    return (f'<rect x="{number(x)}" y="{number(y)}" width="{number(width)}" height="{number(height)}" rx="{radius}" '
            f'fill="{fill}" stroke="{stroke}" stroke-width="1.2"/>')


def path(data, stroke, width, dash=""):
    dashes = f' stroke-dasharray="{dash}"' if dash else ""
    return f'<path d="{data}" fill="none" stroke="{stroke}" stroke-width="{width}"{dashes}/>'


def curve(x1, y1, x2, y2):
    """The data of a path that leaves and arrives level."""
    middle = (x1 + x2) / 2
    points = [(middle, y1), (middle, y2), (x2, y2)]
    return f"M{number(x1)},{number(y1)} C" + " ".join(f"{number(x)},{number(y)}" for x, y in points)


def detour(x1, y1, lane, x2, y2):
    """The data of a path that goes level to a lane, along it and level back."""
    away, back = (1 if lane > x else -1 for x in (x1, x2))
    down = 1 if y2 > y1 else -1
    r = min(CORNER, abs(y2 - y1) / 2)
    return (f"M{number(x1)},{number(y1)} H{number(lane - away * r)} "
            f"Q{number(lane)},{number(y1)} {number(lane)},{number(y1 + down * r)} V{number(y2 - down * r)} "
            f"Q{number(lane)},{number(y2)} {number(lane - back * r)},{number(y2)} H{number(x2)}")


def head(x, y, way, fill):
    """An arrow's head with its tip at a point, to the right where the way is 1 and to the left where it is -1."""
    tail = number(x - way * HEAD)
    points = f"{tail},{number(y - HEAD / 2)} {number(x)},{number(y)} {tail},{number(y + HEAD / 2)}"
    return f'<polygon points="{points}" fill="{fill}"/>'


def page(width, height, title, description, elements):
    """The whole picture."""
    return "\n".join([
        f'<svg xmlns="http://www.w3.org/2000/svg" viewBox="0 0 {number(width)} {number(height)}" '
        f'width="{number(width)}" height="{number(height)}" font-family="{MONO}" '
        'role="img" aria-labelledby="title" aria-describedby="description">',
        f'<title id="title">{html.escape(title)}</title>',
        f'<desc id="description">{html.escape(description)}</desc>',
        f'<rect width="{number(width)}" height="{number(height)}" fill="#ffffff"/>', *elements, "</svg>"])
