"""Files of BODS for tools/bods: those of the rows, hostile ones, and what chance makes, as publishers write it too."""
import json
import random
import re
from collections import Counter

from lib.hostile_inputs import Maker, worked_requests
from lib.random_register import inputs_of, spoil, spoiled_inputs
from lib.rows import all_rows

LONGEST, ALIKE = 200_000, 3
OLD_TYPES = {"entity": "entityStatement", "person": "personStatement", "relationship": "ownershipOrControlStatement"}
OLD_KINDS = {"votingRights": "voting-rights", "appointmentOfBoard": "appointment-of-board"}
BOUNDS = ["exact", "minimum", "maximum", "exclusiveMinimum", "exclusiveMaximum"]
FORMS = ["array", "array", "pretty", "lines", "package", "single", "mark", "utf-16", "old", "old lines"]


def body_of(request):
    return request.partition(b"\r\n\r\n")[2]


def row_files():
    """The files that the rows lodge or check, each once, and a few of those that differ in numbers alone."""
    found, alike = {}, Counter()
    for row in all_rows():
        files = [body_of(it.request) for it in row.exchanges() if it.request.startswith(b"PUT /filings/")]
        for data in [*files, *(it.stdin for it in row.runs() if it.words[:1] in ([], ["check"]))]:
            form = re.sub(rb"\d+", b"0", data)
            alike[form] += data not in found
            if alike[form] <= ALIKE:
                found[data] = None
    return list(found)


def fuzz_files(count, seed):
    """The bodies of hostile inputs, of each the first so many bytes."""
    maker, found, number = Maker(random.Random(f"{seed} bods"), worked_requests()), {}, 0
    while len(found) < count:
        body = body_of(maker.input(number))
        number += 1
        if body:
            found[body[:LONGEST]] = None
    return list(found)


def chance_files(count, seed):
    """Files of registers by chance, most of them spoiled at some places, in their own form or in another."""
    rng, found = random.Random(f"{seed} files"), []
    while len(found) < count:
        lodged = [wish[4] for wish in [*inputs_of(rng), *spoiled_inputs(rng, 10)] if wish[1] == "lodge"]
        for data in lodged:
            for _ in range(rng.choice([0, 0, 1, 2, 4])):
                data = respoiled(rng, data)
            found.append(wrapped(rng, data) if rng.random() < 0.1 else data)
    return found[:count]


def respoiled(rng, data):
    value = json.loads(data)
    if value:
        spoil(rng, value)
    return json.dumps(value, ensure_ascii=rng.random() < 0.5, indent=rng.choice([None, None, 1])).encode()


def wrapped(rng, data):
    forms = [b"\xef\xbb\xbf" + data, b'{"statements":' + data + b"}", data[1:-1], data[: len(data) // 2], b" " + data, data + b"\n"]
    return rng.choice([*forms, data.replace(b"}, {", b"}\n{").strip(b"[]")])


# ---- as publishers write them


def older(rng, statements):
    """The statements as BODS 0.2 and 0.3 have them: each replaces the one before it of its record."""
    told, last = [], {}
    for it in statements:
        record = it["recordId"]
        old = {"statementID": it["statementId"], "statementType": OLD_TYPES[it["recordType"]], "statementDate": it["statementDate"]}
        if record in last:
            old["replacesStatements"] = [last[record]]
        for name, value in it["recordDetails"].items():
            old[name] = older_member(rng, name, value, last)
        last[record] = it["statementId"]
        told.append(old)
    return told


def older_member(rng, name, value, last):
    if name == "entityType":
        return value["type"]
    if name in ("subject", "interestedParty") and isinstance(value, str):
        kind = "Person" if value.startswith("p") else "Entity"
        return {f"describedBy{kind}Statement": last.get(value, value)}
    if name == "interests":
        return [older_interest(rng, interest) for interest in value]
    return value


def older_interest(rng, interest):
    told = dict(interest)
    if rng.random() < 0.5:
        told["type"] = OLD_KINDS.get(told["type"], told["type"])
    if "directOrIndirect" in told:
        told["interestLevel"] = told.pop("directOrIndirect")
    return told


def renumbered(rng, value):
    """The value with numbers of shares written otherwise: as texts, with a point, a percent sign, or a fraction."""
    if isinstance(value, list):
        return [renumbered(rng, it) for it in value]
    if not isinstance(value, dict):
        return value
    told = {}
    for name, it in value.items():
        is_number = name in BOUNDS and isinstance(it, int) and not isinstance(it, bool)
        told[name] = rng.choice([it, float(it), str(it), f"{it}.0", f"{it}%", abs(it - 0.25)]) if is_number else renumbered(rng, it)
    return told


def published(rng, statements, form):
    """The bytes of a file in one of FORMS."""
    if form.startswith("old"):
        statements = older(rng, statements)
    if rng.random() < 0.5:
        statements = renumbered(rng, statements)
    if rng.random() < 0.3:
        rng.shuffle(statements)
    if form.endswith("lines"):
        return "\n".join(json.dumps(it, ensure_ascii=False) for it in statements).encode()
    value = {"statements": statements, "publisher": "x"} if form == "package" else statements[0] if form == "single" else statements
    text = json.dumps(value, ensure_ascii=False, indent=2 if form == "pretty" else None)
    return text.encode("utf-16" if form == "utf-16" else "utf-8-sig" if form == "mark" else "utf-8")


def publisher_files(count, seed):
    """Files as publishers write them, each with its form and whether it holds what a new register takes."""
    rng, found = random.Random(f"{seed} published"), []
    while len(found) < count:
        # (the first filing of an agent and declaration stands on nothing before it)
        for wish in inputs_of(rng)[2:6]:
            if wish[1] == "lodge" and is_plain(json.loads(wish[4])):
                form = rng.choice(FORMS)
                found.append((form, published(rng, json.loads(wish[4]), form)))
    return found[:count]


def is_plain(statements):
    """Whether the statements can be written as older ones."""
    return all(
        isinstance(it.get("recordDetails"), dict)
        and it.get("recordType") in OLD_TYPES
        and isinstance(it.get("recordId"), str)
        and all(isinstance(entity, dict) for entity in [it["recordDetails"].get("entityType", {})])
        for it in statements
    )
