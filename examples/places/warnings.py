"""What a description is warned of though it is lawful: a member that stands twice, of which the last one holds."""
from places.texts import Found


def repeated(node, path=""):
    """Each member that stands twice, with the path of jq to it: its name, the range of the one before and its own."""
    for name, before, again in node.twice:
        yield f"{path}.{name}", name, before, again
    if node.kind == "object":
        for name, (_, value) in node.value.items():
            yield from repeated(value, f"{path}.{name}")
    elif node.kind == "list":
        for index, value in enumerate(node.value):
            yield from repeated(value, f"{path}[{index}]")


def twice(text, top):
    """What is found at each member that stands there a second time."""
    for path, name, before, (start, end) in repeated(top):
        line, column = text.place(before[0])
        yield Found(text, start, end, path, f'warning: "{name}" stands twice, and the last one holds',
                    [f"before it at {text.file}:{line}:{column}, which counts for nothing"])
