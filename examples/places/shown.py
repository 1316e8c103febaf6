"""What is found, as other tools show it: annotations of GitHub's log, and SARIF 2.1.0."""
import json
import os
import re

from places.texts import Text

SCHEMA = "https://json.schemastore.org/sarif-2.1.0.json"
WARNING = "warning"
RULE = re.compile("[FALISP]?[0-9]+|authority|" + WARNING)


def from_top(file):
    """A file's path from the top of what a server has checked out, or from the folder of the call."""
    top = os.environ.get("GITHUB_WORKSPACE")
    return os.path.relpath(os.path.realpath(file), os.path.realpath(top)) if top else file


def rule_and_text(found):
    """The number of the fault that begins what is found, or a word for it, and the rest with the hints."""
    number, _, rest = found.says.partition(": ")
    if not RULE.fullmatch(number):
        number, rest = "authority", found.says
    return number, "; ".join([rest, *found.hints])


def is_warning(found):
    return found.says.startswith(WARNING)


def place_of(found):
    """File, line and column of what is found; of an image, and of the words of a call, the file alone."""
    if not isinstance(found.text, Text):
        return str(found.text), None, None
    line, column = found.text.place(found.start)
    return found.text.file, line, column


def escaped(text, more=()):
    """A text as a command of a log takes it."""
    for character in ("%", "\r", "\n", *more):
        text = text.replace(character, f"%{ord(character):02X}")
    return text


def annotation(found):
    """The line that has a server mark the place in its log and its pages."""
    file, line, column = place_of(found)
    number, text = rule_and_text(found)
    place = [f"file={escaped(from_top(file), ':,')}"] + ([f"line={line}", f"col={column}"] if line else [])
    return f"::{WARNING if is_warning(found) else 'error'} {','.join(place)},title={escaped(number, ':,')}::" + \
        escaped(f"{found.member}: {text}" if found.member else text)


def result(found):
    file, line, column = place_of(found)
    number, text = rule_and_text(found)
    place = {"artifactLocation": {"uri": from_top(file).replace(os.sep, "/")}}
    if line:
        place["region"] = {"startLine": line, "startColumn": column}
    location = {"physicalLocation": place}
    if found.member:
        location["logicalLocations"] = [{"fullyQualifiedName": found.member}]
    return {"ruleId": number, "level": WARNING if is_warning(found) else "error", "message": {"text": text},
            "locations": [location]}


def sarif(all_found):
    """All that is found as the text of a file in SARIF."""
    results = [result(found) for found in all_found]
    rules = [{"id": number} for number in sorted({row["ruleId"] for row in results})]
    driver = {"name": "capfw", "rules": rules}
    return json.dumps({"$schema": SCHEMA, "version": "2.1.0", "runs": [{"tool": {"driver": driver},
                                                                       "results": results}]}, indent=1) + "\n"


def is_annotated():
    """Whether a server reads what is written."""
    return os.environ.get("GITHUB_ACTIONS") == "true"
