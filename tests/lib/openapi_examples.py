"""The examples of docs/openapi.yaml and its schema of a file, held against what the rows and examples/day record."""
import functools
import json
import re
import sys

from lib.notation import ROWS
from lib.openapi import Reply
from lib.program import TOP
from lib.rows import all_rows, enrolments
from lib.schemas import fits

sys.path.append(str(TOP / "tools" / "lib"))

from bods_json import JsonFault, Text
from bods_rules import file_faults


LENGTH = re.compile(rb"\ncontent-length:[ \t]*(\d+)", re.IGNORECASE)


def body_of(request):
    """The body of a request, behind which more may have been sent."""
    head, _, body = request.partition(b"\r\n\r\n")
    found = LENGTH.search(head)
    return body[: int(found[1])] if found else b""


def as_text(value):
    """A text that two values share only where they are the same: true is no 1."""
    return json.dumps(value, sort_keys=True)


def body_text(kind, body):
    """The same of a body, or None where it isn't of its type."""
    try:
        return as_text(json.loads(body) if kind == "application/json" else body.decode())
    except ValueError:
        return None


def recorded():
    """What is asked in the rows and in examples/day, each with its reply."""
    found = [(it.request, it.reply) for row in all_rows() for it in enrolments() + row.exchanges()]
    days = sorted((TOP / "examples" / "day").glob("*.http"))
    return found + [(path.read_bytes(), path.with_suffix(".reply").read_bytes()) for path in days]


class Examples:
    """The examples of a document, and what was asked and told of each of its operations."""

    def __init__(self, document, exchanges):
        self.document, self.told = document, {}
        self.unavailable = as_text(Reply((ROWS / "unavailable.reply").read_bytes()).value())
        for request, data in exchanges:
            key, reply = document.asked(request)[0], Reply(data)
            self.told.setdefault((key, reply.status), []).append((request, as_text(reply.value())))

    def fault(self):
        """What is wrong with the examples, or nothing."""
        faults = [self.reply_fault(*it) for it in self.document.responses()]
        faults += [self.request_fault(*it) for it in self.document.operations()]
        shown = {value["refusal"] for _, status, it in self.document.responses() if status >= 400 for value in self.values(it)}
        listed = {name for _, _, name, _ in self.document.refusals()}
        faults += [f"no example of {listed - shown}"] if listed != shown else []
        return next((it for it in faults if it), None)

    def values(self, part):
        return self.document.examples_of(self.document.content_of(part)[1])

    # ---- replies

    def reply_fault(self, key, status, response):
        """Why the examples of a response aren't what was told, or which kind of it has none."""
        schema, values = self.document.schema_of(response)[1], self.values(response)
        told = {text for _, text in self.told.get((key, status), [])} if status != 503 else {self.unavailable}
        for value in values:
            if not fits(self.document.all, schema, value):
                return f"{key} {status}: {value} doesn't fit its schema"
            if as_text(value) not in told:
                return f"{key} {status}: nobody is told {value}"
        schema = self.document.led(schema)
        for kind in schema.get("oneOf", [schema]):
            if not any(fits(self.document.all, kind, value) for value in values):
                return f"{key} {status}: there is no example of {kind}"
        return None

    # ---- requests

    def request_fault(self, key, operation):
        """Why the examples of a request aren't what was asked: the first ones together, and each by itself."""
        wanted = {it["name"]: (it, self.document.examples_of(it)) for it in self.document.parameters(key)}
        kind, content = self.document.content_of(operation["requestBody"]) if "requestBody" in operation else (None, {})
        bodies = self.document.examples_of(content)
        parts = [(it["schema"], value) for it, values in wanted.values() for value in values]
        for schema, value in [*parts, *((content["schema"], value) for value in bodies)]:
            if not fits(self.document.all, schema, value):
                return f"{key}: {value} doesn't fit its schema"
        done = self.done(key, kind)
        replies = {as_text(it) for status, part in operation["responses"].items() if status < "300" for it in self.values(part)}
        missing = [as_text(it) for it in bodies if as_text(it) not in {body for _, body, _ in done}]
        missing += [name for name, (_, values) in wanted.items() if values not in [given[name] for given, _, _ in done]]
        if missing or kind and not bodies:
            return f"{key}: nobody asks for {missing or 'anything'}"
        asked = [reply for given, body, reply in done if is_as(given, wanted) and (not bodies or body == as_text(bodies[0]))]
        return None if replies & set(asked) else f"{key}: no request has these examples together, and is told one of the reply"

    def done(self, key, kind):
        """The requests of an operation that were done: what they give, their bodies, and the replies to them."""
        told = [it for (name, status), all_told in self.told.items() if name == key and status < 300 for it in all_told]
        return [(self.document.given(key, it), body_text(kind, body_of(it)) if kind else None, reply) for it, reply in told]


def is_as(given, wanted):
    """Whether a request gives the examples, and each other parameter as one or not at all."""
    return all(given[name] == values or not (it["required"] or given[name]) for name, (it, values) in wanted.items())


# ---- files

WITHIN = re.compile(r"[^\x00-\x1f\x7f]{1,255}")
IDENTIFIERS = ["statementId", "declarationSubject", "recordId", "subject", "interestedParty"]


def is_said(fault, value):
    """Whether a schema can say a file's fault: none counts bytes, tells 25.0 from 25, or compares two members."""
    it = value
    for step in fault.path:
        it = it[step]
    if fault.name == "Fraction":
        return it % 1 != 0 or not 0 <= it <= 100
    if fault.name == "Bad" and fault.field in IDENTIFIERS and isinstance(it, str):
        return not WITHIN.fullmatch(it)
    return fault.name != "EmptyShare"


@functools.lru_cache(maxsize=None)
def read_of(data):
    """The value of a file's bytes, or JsonFault where they have none, and whether it has no fault that a schema can say."""
    try:
        value = Text(data.decode()).document().value
    except (JsonFault, UnicodeDecodeError):
        return JsonFault, False
    return value, not any(is_said(it, value) for it in file_faults(value))


def lodged():
    """Each file of the rows once, with the refusal that the rows have of it; None where it is taken."""
    found = {}
    for row in all_rows():
        for it in row.exchanges():
            refusal = Reply(it.reply).refusal()[0]
            if it.request.startswith(b"PUT /filings/") and it.status in (200, 201, 422) and refusal != "DuePast":
                found[body_of(it.request), refusal] = None
        for it in row.runs():
            if it.words in ([], ["check"]) and it.status < 2:
                found[it.stdin, it.output[0].split()[1] if it.status else None] = None
    return list(found)


# A file with the members of BODS 0.4, those that are passed over too, and what may stand in a part's place.
WHOLE = """[
 {"statementId":"s1","statementDate":"2024-01-10","declarationSubject":"e1","declaration":"d1","recordId":"e1","recordType":"entity",
  "recordStatus":"new","publicationDetails":{"publicationDate":"2024-01-11","bodsVersion":"0.4","publisher":{"name":"A register"}},
  "source":{"type":["officialRegister"]},"annotations":[{"motivation":"commenting"}],"recordDetails":{"isComponent":false,
  "entityType":{"type":"registeredEntity","subtype":"other","details":"Ltd"},"name":"Alder Ltd","alternateNames":["Alder"],
  "jurisdiction":{"name":"United Kingdom","code":"GB"},"identifiers":[{"id":"1","scheme":"GB-COH","schemeName":"Companies","uri":"u"}],
  "foundingDate":"2000-01-01","addresses":[{"type":"registered","country":{"code":"GB"}}],"publicListing":{"hasPublicListing":false}}},
 {"statementId":"s2","statementDate":"2024-01-10","declarationSubject":"e1","recordId":"p1","recordType":"person","recordDetails":
  {"isComponent":false,"personType":"knownPerson","names":[{"type":"legal","fullName":"Ann Moss","givenName":"Ann"}],
  "identifiers":[{"id":"7"}],"nationalities":[{"code":"GB"}],"birthDate":"1970-01","politicalExposure":{"status":"isNotPep"}}},
 {"statementId":"s3","statementDate":"2024-01-10T09:00:00Z","declarationSubject":"e1","recordId":"r1","recordType":"relationship",
  "recordDetails":{"isComponent":false,"componentRecords":["r2"],"subject":"e1","interestedParty":"p1","interests":[{"type":"votingRights",
  "directOrIndirect":"direct","beneficialOwnershipOrControl":true,"details":"x","startDate":"2020-01","endDate":"2030","share":
  {"exact":5,"minimum":0,"maximum":9,"exclusiveMinimum":true,"exclusiveMaximum":9}},{"type":"trustee","share":{"exact":0.5}}]}},
 {"statementId":"s4","statementDate":"2024-01-10","declarationSubject":"e1","recordId":"r3","recordType":"relationship",
  "recordDetails":{"subject":"e1","interestedParty":{"reason":"noBeneficialOwners","description":"x"}}}
]"""
OTHERS = [None, False, 7, 101, -1, 2.5, "", "x", "é" * 200, [], [7], {}]


def spoiled(value):
    """The value with each of its parts in turn left out, and with each of the others in its place."""
    if isinstance(value, dict):
        for name, part in value.items():
            yield {other: it for other, it in value.items() if other != name}
            yield from ({**value, name: it} for it in [*OTHERS, *spoiled(part)])
    if isinstance(value, list):
        for at, part in enumerate(value):
            yield value[:at] + value[at + 1 :]
            yield from ([*value[:at], it, *value[at + 1 :]] for it in [*OTHERS, *spoiled(part)])


def spoiled_files():
    return [WHOLE.encode()] + [json.dumps(it).encode() for it in spoiled(json.loads(WHOLE))]


def file_fault(document, data, is_taken=False):
    """Why the schema of a file takes or refuses a file that it shouldn't, or nothing."""
    value, is_good = read_of(data)
    if value is JsonFault:
        return f"it can't be read: {data[:1000]!r}" if is_taken else None
    told = is_fit(document, value)
    return None if told == (is_taken or is_good) else f"the schema {'takes' if told else 'refuses'} {data[:1000]!r}"


def is_fit(document, value):
    """Whether a value fits the schema of a file; JsonFault, which is none, doesn't."""
    return value is not JsonFault and fits(document.all, document.all["components"]["schemas"]["File"], value)


# ---- words


def words_fault(document):
    """Why the words that a file may have aren't those that are shown of it, or don't lead to the statement of their type."""
    schemas = document.all["components"]["schemas"]
    members = {name: it.get("properties", {}) for name, it in schemas.items()}
    kinds, mapping = schemas["Statement"]["oneOf"], schemas["Statement"]["discriminator"]["mapping"]
    pairs = [
        (members["EntityRecord"]["entityType"]["properties"]["type"]["examples"] + ["other"], members["EntityDetails"]["kind"]["enum"]),
        (members["PersonRecord"]["personType"]["examples"] + ["other"], members["PersonDetails"]["kind"]["enum"]),
        (schemas["DeclaredDirectness"]["examples"], members["Interest"]["directness"]["enum"]),
        (members["CountedInterest"]["type"]["enum"] + ["other"], members["Interest"]["type"]["enum"]),
        (list(mapping), schemas["RecordType"]["enum"]),
        (list(mapping.values()), [it["$ref"] for it in kinds]),
        ([{"const": name} for name in mapping], [document.led(it)["properties"]["recordType"] for it in kinds]),
    ]
    return next((f"{one} and {other} differ" for one, other in pairs if one != other), None)
