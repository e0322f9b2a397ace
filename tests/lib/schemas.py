"""Whether a value fits a schema of docs/openapi.yaml: the words of JSON Schema 2020-12 that it uses, and no others."""
import functools
import re


def is_number(value):
    return isinstance(value, (int, float)) and not isinstance(value, bool)


# (a number without a fraction is an integer however it is written: 25.0 is one)
TYPES = {
    "array": lambda value: isinstance(value, list),
    "boolean": lambda value: isinstance(value, bool),
    "integer": lambda value: is_number(value) and value % 1 == 0,
    "null": lambda value: value is None,
    "object": lambda value: isinstance(value, dict),
    "string": lambda value: isinstance(value, str),
}
DAY = re.compile(r"(\d{4})-(\d\d)-(\d\d)")


class NoSchema(Exception):
    """A schema has a word that isn't known here, or leads nowhere."""


def led(document, part):
    """The part of a document that this one is, or that it leads to by $ref."""
    while isinstance(part, dict) and "$ref" in part:
        if part.keys() != {"$ref"} or not part["$ref"].startswith("#/"):
            raise NoSchema(f"{part} leads out of the document")
        target = document
        for name in part["$ref"][2:].split("/"):
            if name not in target:
                raise NoSchema(f"{part['$ref']} leads nowhere")
            target = target[name]
        part = target
    return part


def same(value, wanted):
    return value == wanted and isinstance(value, bool) == isinstance(wanted, bool)


def is_day(value):
    """Whether a text is a date as RFC 3339 has it; years begin with 0000 there."""
    found = DAY.fullmatch(value)
    if not found:
        return False
    year, month, day = map(int, found.groups())
    leaps = year % 4 == 0 and (year % 100 != 0 or year % 400 == 0)
    lengths = [31, 29 if leaps else 28, 31, 30, 31, 30, 31, 31, 30, 31, 30, 31]
    return 1 <= month <= 12 and 1 <= day <= lengths[month - 1]


def is_of_type(value, names):
    return any(TYPES[name](value) for name in ([names] if isinstance(names, str) else names))


@functools.lru_cache
def form_of(pattern):
    """A pattern as Python has it, where $ isn't the end alone, but the place before a last line feed too."""
    return re.compile(pattern.replace("$", r"\Z"))


def has_members(document, schema, value):
    if not isinstance(value, dict):
        return True
    known = schema.get("properties", {})
    if schema.get("additionalProperties") is False and not value.keys() <= known.keys():
        return False
    return all(fits(document, known[name], it) for name, it in value.items() if name in known)


# Each word, as what it asks of a value.
WORDS = {
    "type": lambda document, schema, value: is_of_type(value, schema["type"]),
    "enum": lambda document, schema, value: any(same(value, it) for it in schema["enum"]),
    "const": lambda document, schema, value: same(value, schema["const"]),
    "pattern": lambda document, schema, value: not isinstance(value, str) or bool(form_of(schema["pattern"]).search(value)),
    "format": lambda document, schema, value: schema["format"] != "date" or not isinstance(value, str) or is_day(value),
    "minLength": lambda document, schema, value: not isinstance(value, str) or len(value) >= schema["minLength"],
    "minimum": lambda document, schema, value: not is_number(value) or value >= schema["minimum"],
    "maximum": lambda document, schema, value: not is_number(value) or value <= schema["maximum"],
    "minItems": lambda document, schema, value: not isinstance(value, list) or len(value) >= schema["minItems"],
    "maxItems": lambda document, schema, value: not isinstance(value, list) or len(value) <= schema["maxItems"],
    "items": lambda document, schema, value: not isinstance(value, list)
    or all(fits(document, schema["items"], it) for it in value),
    "required": lambda document, schema, value: not isinstance(value, dict) or set(schema["required"]) <= value.keys(),
    "properties": has_members,
    "additionalProperties": has_members,
    "oneOf": lambda document, schema, value: sum(fits(document, it, value) for it in schema["oneOf"]) == 1,
    "not": lambda document, schema, value: not fits(document, schema["not"], value),
    **dict.fromkeys(["description", "examples", "discriminator"], lambda document, schema, value: True),
}


def fits(document, schema, value):
    """Whether a value fits a schema of the document."""
    schema = led(document, schema)
    for word in schema:
        if word not in WORDS:
            raise NoSchema(f"nobody knows {word}")
    return all(WORDS[word](document, schema, value) for word in schema)


def schemas_in(document, schema):
    """The schema, and all that stand in it or that it leads to; the document's lead to one another in no circle."""
    schema = led(document, schema)
    yield schema
    parts = [*schema.get("properties", {}).values(), *schema.get("oneOf", [])]
    for part in [*parts, *(schema[word] for word in ("items", "not") if word in schema)]:
        yield from schemas_in(document, part)
