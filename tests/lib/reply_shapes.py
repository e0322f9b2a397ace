"""What a reply has to look like whatever was asked: its fields, its status, and the shape of its body."""
import json
import re

from lib.replies import PHRASES, reply

HEAD = re.compile(
    rb"HTTP/1\.1 (\d{3}) [^\r\n]*\r\nContent-Type: application/json\r\nContent-Length: (\d+)\r\n"
    rb"(?:WWW-Authenticate: Bearer\r\n)?(?:Allow: ([A-Z, ]+)\r\n)?Connection: close\r\n\r\n"
)
# The methods of a path, as a 405 tells them.
ALLOWED = {b"GET", b"POST", b"PUT", b"DELETE, PUT"}
# Of each status its refusals, each with the names of its body: f for a field, p for a place.
REFUSALS = {
    400: {"CutShort": "", "BadHead": "", "BadLength": "", "BadQuery": "f"},
    401: {"NoToken": "", "NoAgent": ""},
    403: {"NotRegistrar": "", "NotAgent": ""},
    404: {"NoPath": "", "NoSuchFiling": "", "NoEntity": "", "NoSuchAgent": ""},
    405: {"WrongMethod": ""},
    409: dict.fromkeys(
        ["KeyReused", "FilingsFull", "Published", "HasSuccessor", "DayBack", "NameTaken", "TokenTaken"], ""
    ),
    413: {"BodyTooLarge": ""},
    422: {
        **dict.fromkeys(["DuePast", "NotJson", "NotAList", "NoStatements", "TooMany"], ""),
        **dict.fromkeys(["Missing", "Bad", "TooLong"], "fp"),
        **dict.fromkeys(["Fraction", "ShareRange", "EmptyShare", "StatementTwice", "TypeChanged"], "p"),
        **dict.fromkeys(["RecordExists", "RecordUnknown", "RecordClosed", "DateBack", "DueBeforeRecord"], "p"),
    },
    431: {"HeadTooLarge": ""},
}
QUERY_NAMES = ["key", "due", "agent", "declaration", "record", "scheme", "id", "date", "name", "token"]
MEMBERS = [
    "statement", "statementId", "statementDate", "declarationSubject", "recordId", "recordType", "recordStatus",
    "recordDetails", "identifiers", "subject", "interestedParty", "interests", "share", "exact", "minimum", "maximum",
    "exclusiveMinimum", "exclusiveMaximum",
]


# ---- shapes of values


def text(value):
    return isinstance(value, str)


def text_or_null(value):
    return value is None or isinstance(value, str)


def number(value):
    return type(value) is int and value > 0


def count(value):
    return type(value) is int and value >= 0


def percent(value):
    return type(value) is int and 0 <= value <= 100


def truth(value):
    return isinstance(value, bool)


def day(value):
    return isinstance(value, str) and re.fullmatch(r"\d{4}-\d{2}-\d{2}", value) is not None


def one_of(*words):
    return lambda value: isinstance(value, str) and value in words


def either(*shapes):
    return lambda value: any(fits(value, shape) for shape in shapes)


def null(value):
    return value is None


def fits(value, shape):
    """Whether a value has the shape: an object with these members and no others, a list, or what a test says."""
    if isinstance(shape, dict):
        if not isinstance(value, dict) or value.keys() != shape.keys():
            return False
        return all(fits(value[name], part) for name, part in shape.items())
    if isinstance(shape, list):
        return isinstance(value, list) and all(fits(item, shape[0]) for item in value)
    return shape(value)


STATE = one_of("draft", "published", "withdrawn")
FILING = {"due": day, "filing": number, "state": STATE}
STATUS, TYPE = one_of("new", "updated", "closed"), one_of("entity", "person", "relationship")
LINE = {"date": day, "declaration": text, "id": text, "record": text, "status": STATUS, "type": TYPE}
SHARE = {"high": percent, "highOpen": truth, "low": percent, "lowOpen": truth}
INTEREST = {
    "directness": one_of("direct", "indirect", "unknown"),
    "share": either(null, SHARE),
    "type": one_of("shareholding", "votingRights", "appointmentOfBoard", "other"),
}
DETAILS = either(
    {"identifiers": [{"id": text, "scheme": text}], "kind": text, "name": text_or_null},
    {"kind": text, "name": text_or_null},
    {"interestedParty": text_or_null, "interests": [INTEREST], "subject": text_or_null},
)
RECORD = {"date": day, "details": DETAILS, "id": text, "record": text, "status": STATUS, "type": TYPE}
PERSON = {"agent": text, "declaration": text, "links": number, "name": text_or_null, "record": text}
PUBLISHED = [{"agent": text, "due": day, "statements": [LINE]}]
SNAPSHOT = {"date": day, "records": [RECORD]}
CHAINS = {"agent": text, "date": day, "declaration": text, "persons": [PERSON], "record": text}
KEY = {"agent": text, "declaration": text, "record": text}
EVIDENCE = {
    **CHAINS,
    "links": [{**KEY, "next": either(null, KEY), "same": [KEY]}],
    "persons": [{**PERSON, "first": KEY}],
    "records": [{**RECORD, "agent": text, "declaration": text}],
}
ENTITIES = {"date": day, "entities": EVIDENCE["records"], "id": text, "scheme": text}
FILE = "a file"
# The routes, and what a status of success tells on each.
ROUTES = [
    (re.compile(rb"(?:PUT) /filings/[^/?]+(?:\?.*)?"), {200: FILING, 201: FILING}),
    (re.compile(rb"DELETE /filings/[^/?]+(?:\?.*)?"), {200: FILING}),
    (re.compile(rb"GET /filings(?:\?.*)?"), {200: [{"due": day, "filing": number, "key": text, "state": STATE}]}),
    (re.compile(rb"GET /filings/[^/?]+/file(?:\?.*)?"), {200: FILE}),
    (re.compile(rb"GET /published(?:\?.*)?"), {200: PUBLISHED}),
    (re.compile(rb"GET /snapshot\?.*"), {200: SNAPSHOT}),
    (re.compile(rb"GET /chains\?.*"), {200: CHAINS}),
    (re.compile(rb"GET /evidence\?.*"), {200: EVIDENCE}),
    (re.compile(rb"GET /entities\?.*"), {200: ENTITIES}),
    (re.compile(rb"POST /day\?.*"), {200: {"day": day}}),
    (re.compile(rb"POST /agents\?.*"), {201: {"agent": text}}),
    (re.compile(rb"PUT /agents/[^/?]+(?:\?.*)?"), {200: {"agent": text}}),
    (re.compile(rb"GET /register(?:\?.*)?"), {200: {"agents": [{"agent": text, "published": count}], "day": day}}),
]


# ---- replies


class Told:
    """A reply: its status, its body and all of its bytes."""

    __slots__ = ("status", "body", "bytes")

    def __init__(self, status, body, data):
        self.status, self.body, self.bytes = status, body, data

    def is_refusal(self):
        return self.status >= 400


def reply_at(output, at):
    """The reply that begins there, or in words why none does."""
    found = HEAD.match(output, at)
    if not found:
        return None, f"no reply begins with {output[at : at + 200]!r}"
    status, end = int(found[1]), found.end() + int(found[2])
    data, body = output[at:end], output[found.end() : end]
    if end > len(output):
        return None, f"a reply is cut short: {data[:300]!r}"
    allow = found[3]
    if (status == 405) != (allow in ALLOWED):
        return None, f"the methods of a reply are not as they have to be: {data[:300]!r}"
    if status in PHRASES and data != reply(status, body, allow.decode() if allow else None):
        return None, f"a reply has not the fields of its status: {data[:300]!r}"
    return Told(status, body, data), None


def parsed(body):
    """The value of a compact body with its names in order, or None."""
    try:
        value = json.loads(body)
        text = json.dumps(value, ensure_ascii=False, separators=(",", ":"), sort_keys=True)
        return value if text.encode() == body else None
    except (ValueError, RecursionError):
        return None


def status_fault(told):
    """Why a status, or a refusal under it, may not be told."""
    if told.status in (200, 201):
        return None
    if told.status not in REFUSALS:
        return f"status {told.status}"
    value = parsed(told.body)
    name = value.get("refusal") if isinstance(value, dict) else None
    if name not in REFUSALS[told.status]:
        return f"status {told.status} with the body {told.body[:200]!r}"
    return None


def refusal_fault(told):
    """Why a refusal's body is not of its shape."""
    value = parsed(told.body)
    wanted = REFUSALS[told.status][value["refusal"]]
    names = QUERY_NAMES if told.status == 400 else MEMBERS
    shape = {"refusal": text}
    if "f" in wanted:
        shape["field"] = one_of(*names)
    if "p" in wanted:
        shape["place"] = number
    return None if fits(value, shape) else f"the refusal {told.body[:200]!r}"


def body_fault(data, told):
    """Why a body of success is not of the shape of what was asked; a file is told as it was lodged."""
    line = data.lstrip(b"\r\n").split(b"\n", 1)[0]
    target = b" ".join(line.split()[:2])
    shape = next((shapes.get(told.status) for route, shapes in ROUTES if route.fullmatch(target)), None)
    if shape is None:
        return f"{target[:200]!r} is answered {told.status}"
    if shape is FILE:
        return file_fault(told.body)
    value = parsed(told.body)
    if value is None or not fits(value, shape):
        return f"{target[:100]!r} is answered {told.body[:200]!r}"
    return None


def file_fault(body):
    try:
        value = json.loads(body)
    except (ValueError, RecursionError):
        return f"a file is no JSON: {body[:200]!r}"
    is_file = isinstance(value, list) and 1 <= len(value) <= 1000 and all(isinstance(it, dict) for it in value)
    return None if is_file else f"a file is no list of statements: {body[:200]!r}"
