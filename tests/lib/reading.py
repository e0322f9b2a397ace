"""A second answer to what a file says: the first line of the table of members that fails, or statements.

The table itself is that of `tools/lib/bods_rules.py`, which lists all lines that fail.
"""
import json
import re
import sys
from dataclasses import dataclass
from pathlib import Path

sys.path.append(str(Path(__file__).resolve().parent.parent.parent / "tools" / "lib"))

from bods_rules import ENTITIES, NAMED, PERSONS, TYPES, day_of, end_of, file_faults, member, one_of, points_of, start_of, text


class Refused(Exception):
    """A refusal with the member that it is about and the place of its statement, where it has them."""

    def __init__(self, name, field=None, place=None):
        super().__init__(name)
        self.name, self.field, self.place = name, field, place


@dataclass
class Interest:
    """An interest; its points are the half percents that meet every bound of its share, its ends days."""

    kind: str
    directness: str
    points: frozenset
    share: object
    starts: object
    ends: object


@dataclass
class Statement:
    id: str
    day: str
    declaration: str
    record: str
    type: str
    status: object
    details: dict
    interests: list


# ---- interests


def share_shown(points):
    low, high = min(points), max(points)
    return {"low": low // 2, "lowOpen": low % 2 == 1, "high": (high + 1) // 2, "highOpen": high % 2 == 1}


def interest_of(value):
    kind = one_of(NAMED)(value.get("type")) or "other"
    directness = one_of(["direct", "indirect"])(value.get("directOrIndirect")) or "unknown"
    dates = start_of(value.get("startDate")), end_of(value.get("endDate"))
    share = value.get("share") if kind != "other" else None
    if share is None:
        return Interest(kind, directness, frozenset(range(201)), None, *dates)
    points = points_of(share)
    return Interest(kind, directness, points, share_shown(points), *dates)


# ---- details


def entity(details):
    kept = [
        {"id": item["id"], "scheme": item["scheme"]}
        for item in details.get("identifiers") or []
        if text(member(item, "scheme")) and text(member(item, "id"))
    ]
    kind = one_of(ENTITIES)(member(details.get("entityType"), "type")) or "other"
    return {"identifiers": kept, "kind": kind, "name": text(details.get("name"))}, []


def person(details):
    names = details.get("names")
    first = names[0] if isinstance(names, list) and names else None
    kind = one_of(PERSONS)(details.get("personType")) or "other"
    return {"kind": kind, "name": text(member(first, "fullName"))}, []


def relationship(details):
    interests = [interest_of(item) for item in details.get("interests") or []]
    shown = [{"directness": it.directness, "share": it.share, "type": it.kind} for it in interests]
    subject, party = text(details["subject"]), text(details["interestedParty"])
    return {"interestedParty": party, "interests": shown, "subject": subject}, interests


READERS = dict(zip(TYPES, (entity, person, relationship)))


def statement(value):
    """The statement of a value without a fault."""
    kind = value["recordType"]
    shown, interests = READERS[kind](value["recordDetails"])
    names = value["statementId"], day_of(value["statementDate"]), value["declarationSubject"], value["recordId"]
    return Statement(*names, kind, value.get("recordStatus"), shown, interests)


# A pair of surrogates, or another letter behind a backslash.
ESCAPE = re.compile(r"\\u[dD][89abAB][\da-fA-F]{2}\\u[dD][c-fC-F][\da-fA-F]{2}|\\(?:u([\da-fA-F]{4})|.)", re.DOTALL)
STRING = re.compile(r'"(?:[^"\\]|\\.)*"', re.DOTALL)
LEVELS = 127


def depth_of(text):
    """How deep lists and objects stand in each other in a text of JSON."""
    depth = deepest = 0
    for letter in re.findall(r"[\[\]{}]", STRING.sub("", text)):
        depth += 1 if letter in "[{" else -1
        deepest = max(deepest, depth)
    return deepest


def whole(digits):
    """A whole number; one that is greater than all of 64 bits' floats is none, and -0 is a float."""
    fraction(digits)
    return -0.0 if digits == "-0" else int(digits)


def fraction(digits):
    value = float(digits)
    if value in (float("inf"), float("-inf")):
        raise ValueError
    return value


def constant(_word):
    raise ValueError


def json_of(data):
    """The value of a text of JSON in UTF-8: no constants, no half of a pair of surrogates, and 127 levels."""
    text = data.decode()
    if depth_of(text) > LEVELS:
        raise ValueError
    if any(0xD800 <= int(found[1] or "0", 16) <= 0xDFFF for found in ESCAPE.finditer(text)):
        raise ValueError
    return json.loads(text, parse_int=whole, parse_float=fraction, parse_constant=constant)


def read(data):
    """The statements of a file, or its first fault."""
    try:
        value = json_of(data)
    except ValueError:
        raise Refused("NotJson") from None
    for fault in file_faults(value):
        raise Refused(fault.name, fault.field, fault.place)
    return [statement(item) for item in value]
