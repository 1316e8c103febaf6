"""The few keywords of JSON Schema that docs/use/description.schema.json uses."""
import json
import re

UNKNOWN = "this member isn't known here"
NOTES = {"$schema", "$defs", "title", "description", "default"}


# ---- values

def is_number(value):
    return isinstance(value, (int, float)) and not isinstance(value, bool)


TYPES = {
    "object": lambda value: isinstance(value, dict), "array": lambda value: isinstance(value, list),
    "string": lambda value: isinstance(value, str), "integer": lambda value: is_number(value) and value == value // 1,
    "number": is_number, "boolean": lambda value: isinstance(value, bool), "null": lambda value: value is None}


def same(first, second):
    """JSON's equality: 1 is 1.0, and no number is true or false."""
    if isinstance(first, bool) != isinstance(second, bool):
        return False
    return first == second


# ---- keywords about a value of one type: each yields why it doesn't hold

def types(rule, value):
    names = rule if isinstance(rule, list) else [rule]
    if not any(TYPES[name](value) for name in names):
        yield f"{' or '.join(names)} is wanted"


def pattern(rule, value):
    # `$` is the end of the text alone, as it is in the language that the keyword has its patterns from
    if isinstance(value, str) and not re.search(rule.replace("$", r"\Z"), value):
        yield f'"{value}" isn\'t of the form {rule}'


def listed(rule, value):
    if not any(same(value, other) for other in rule):
        yield f"one of {', '.join(map(str, rule))} is wanted"


def once(rule, value):
    if rule and isinstance(value, list):
        for at, item in enumerate(value):
            if any(same(item, other) for other in value[:at]):
                yield f"{item} stands twice"


def bound(kind, measure, holds, words):
    """A keyword that compares a number with one of the value."""
    def judge(rule, value):
        if kind(value) and not holds(measure(value), rule):
            yield f"{measure(value)} {words} {rule}"
    return judge


def itself(value):
    return value


TEXT, LIST, OBJECT = TYPES["string"], TYPES["array"], TYPES["object"]
VALUES = {
    "type": types, "pattern": pattern, "enum": listed, "const": lambda rule, value: listed([rule], value),
    "uniqueItems": once,
    "minimum": bound(is_number, itself, lambda a, b: a >= b, "is less than"),
    "maximum": bound(is_number, itself, lambda a, b: a <= b, "is more than"),
    "multipleOf": bound(is_number, itself, lambda a, b: a % b == 0, "is no multiple of"),
    "minLength": bound(TEXT, len, lambda a, b: a >= b, "characters are fewer than"),
    "maxLength": bound(TEXT, len, lambda a, b: a <= b, "characters are more than"),
    "maxItems": bound(LIST, len, lambda a, b: a <= b, "elements are more than"),
    "minProperties": bound(OBJECT, len, lambda a, b: a >= b, "members are fewer than"),
    "maxProperties": bound(OBJECT, len, lambda a, b: a <= b, "members are more than")}


# ---- keywords about parts of a value, and about other schemas

def members(judge, schema, value, path):
    if not isinstance(value, dict):
        return
    for name in schema.get("required", []):
        if name not in value:
            yield path, f"{name} is missing"
    known = schema.get("properties", {})
    for name, item in value.items():
        if name in known:
            yield from judge(known[name], item, path + (name,))
        elif schema.get("additionalProperties") is False:
            yield path + (name,), UNKNOWN


def elements(judge, schema, value, path):
    for at, item in enumerate(value if isinstance(value, list) and "items" in schema else []):
        yield from judge(schema["items"], item, path + (at,))


def alternatives(judge, schema, value, path):
    for name, holds, words in (("oneOf", lambda count: count == 1, "exactly one"),
                               ("anyOf", lambda count: count > 0, "one at least")):
        faults = [list(judge(other, value, path)) for other in schema.get(name, [])]
        count = sum(not it for it in faults)
        if name in schema and not holds(count):
            yield path, f"{words} of its forms is wanted: {count} fit"
    for other in schema.get("allOf", []):
        yield from judge(other, value, path)
    if "not" in schema and not list(judge(schema["not"], value, path)):
        yield path, f"this may not stand here: {json.dumps(value)}"
    if "if" in schema:
        branch = "else" if list(judge(schema["if"], value, path)) else "then"
        yield from judge(schema.get(branch, {}), value, path)


HELD = {"required": members, "properties": members, "additionalProperties": members, "items": elements}
HELD.update(dict.fromkeys(("oneOf", "anyOf", "allOf", "not", "if", "then", "else"), alternatives))


class Judge:
    """Judges values by a schema, whose references lead to its own definitions."""

    def __init__(self, top):
        self.top = top

    def __call__(self, schema, value, path):
        judges = {}
        for keyword, rule in schema.items():
            if keyword in VALUES:
                yield from ((path, why) for why in VALUES[keyword](rule, value))
            elif keyword == "$ref":
                yield from self(self.referred(rule), value, path)
            elif keyword in HELD:
                judges[HELD[keyword]] = None
            else:
                assert keyword in NOTES, f"a keyword that isn't known here: {keyword}"
        for judge in judges:
            yield from judge(self, schema, value, path)

    def referred(self, reference):
        schema = self.top
        for step in reference.removeprefix("#/").split("/"):
            schema = schema[step]
        return schema

    def faults(self, value):
        """Each path at which a value isn't as the schema says, and why."""
        return list(self(self.top, value, ()))
