"""A second answer to bytes: what an input spells by the table of refusals, and then what the second register answers.

Of a head with letters on which readers of HTTP may differ nothing is said.
"""
import re
from urllib.parse import parse_qsl

from lib.reading import Refused
from lib.register import Register, refused, told
from lib.replies import reply

from bods_rules import day_of, is_ident

HEAD_END = re.compile(rb"\n\r?\n")
LONGEST_HEAD, LINES, LONGEST_BODY = 16_384, 66, 1_048_576
REQUEST_LINE = re.compile(rb"([A-Z]+) (/[A-Za-z0-9/?&=._~%+:;@!$'()*,-]*) HTTP/1\.[01]")
FIELD = re.compile(rb"([A-Za-z0-9-]+):[ \t]*([\x20-\x7e\t]*?)[ \t]*")
# Lines of which all readers say that they are none.
NO_REQUEST_LINE = re.compile(rb"[A-Za-z0-9/ .-]*")
BEARER = re.compile(rb"(?i:bearer) +([\x21-\x7e]{16,64})")
NAME, KEY, TOKEN = (re.compile(form) for form in ("[a-z0-9-]{1,32}", "[A-Za-z0-9._-]{1,64}", "[\x21-\x7e]{16,64}"))
ROUTES = [
    (re.compile(r"/filings/([^/]+)"), {"PUT": "lodge", "DELETE": "withdraw"}),
    (re.compile(r"/filings"), {"GET": "filings"}),
    (re.compile(r"/filings/([^/]+)/file"), {"GET": "file"}),
    (re.compile(r"/published"), {"GET": "published"}),
    (re.compile(r"/snapshot"), {"GET": "snapshot"}),
    (re.compile(r"/chains"), {"GET": "chains"}),
    (re.compile(r"/evidence"), {"GET": "evidence"}),
    (re.compile(r"/entities"), {"GET": "entities"}),
    (re.compile(r"/day"), {"POST": "day"}),
    (re.compile(r"/agents"), {"POST": "enrol"}),
    (re.compile(r"/agents/([^/]+)"), {"PUT": "renew"}),
    (re.compile(r"/register"), {"GET": "register"}),
]
# The names of each wish in their order; a date that is left out is the register's day, but of the day itself.
NAMES = {
    "lodge": ["key", "due"],
    "withdraw": ["key"],
    "file": ["key"],
    "snapshot": ["agent", "declaration", "date"],
    "chains": ["agent", "declaration", "record", "date"],
    "evidence": ["agent", "declaration", "record", "date"],
    "entities": ["scheme", "id", "date"],
    "day": ["date"],
    "enrol": ["name", "token"],
    "renew": ["name", "token"],
}


class Unsaid(Exception):
    """Readers of HTTP may differ here."""


class NoRequest(Exception):
    """The refusal of an input that spells no request, with its status, the name it is about, or the path's methods."""

    def __init__(self, status, name, field=None, allow=None):
        super().__init__(name)
        body = {"field": field, "refusal": name} if field else {"refusal": name}
        self.reply = reply(status, told(body), allow)


def fits(form):
    return lambda value: value if form.fullmatch(value) else None


def ident(value):
    return value if is_ident(value) else None


VALUES = {
    "due": day_of,
    "date": day_of,
    "agent": fits(NAME),
    "name": fits(NAME),
    "declaration": ident,
    "record": ident,
    "scheme": ident,
    "id": ident,
    "key": fits(KEY),
    "token": fits(TOKEN),
}


def head_in(data):
    found = HEAD_END.search(data)
    if not found or found.end() > LONGEST_HEAD:
        raise NoRequest(431, "HeadTooLarge") if len(data) >= LONGEST_HEAD else NoRequest(400, "CutShort")
    if data.count(b"\n", 0, found.end()) > LINES:
        raise NoRequest(431, "HeadTooLarge")
    return data[: found.end()], data[found.end() :]


def parsed_head(head):
    """The method, the target and the fields of a head."""
    first, *lines = re.split(rb"\r?\n", head)[:-2]
    line = REQUEST_LINE.fullmatch(first)
    if not line:
        is_none = first and NO_REQUEST_LINE.fullmatch(first) and first.count(b" ") < 2
        raise NoRequest(400, "BadHead") if is_none else Unsaid
    fields = []
    for text in lines:
        field = FIELD.fullmatch(text)
        if not field:
            raise Unsaid
        fields.append((field[1].lower(), field[2]))
    return line[1].decode(), line[2].decode(), fields


def body_in(rest, fields):
    lengths = [value for name, value in fields if name == b"content-length"]
    is_coded = any(name == b"transfer-encoding" for name, _ in fields)
    if is_coded or len(lengths) > 1 or lengths and not re.fullmatch(rb"[0-9]+", lengths[0]):
        raise NoRequest(400, "BadLength")
    digits = lengths[0].lstrip(b"0") if lengths else b""
    if len(digits) > 7 or int(digits or b"0") > LONGEST_BODY:
        raise NoRequest(413, "BodyTooLarge")
    body = rest[: int(digits or b"0")]
    if len(body) < int(digits or b"0"):
        raise NoRequest(400, "CutShort")
    return body


def routed(method, path):
    """The wish of a path and a method, and the key or the name in the path."""
    found, wishes = next(
        ((route.fullmatch(path), wishes) for route, wishes in ROUTES if route.fullmatch(path)), (None, None)
    )
    if not found:
        raise NoRequest(404, "NoPath")
    if method not in wishes:
        raise NoRequest(405, "WrongMethod", allow=", ".join(sorted(wishes)))
    return wishes[method], found[1] if found.groups() else None


def token_in(fields):
    values = [value for name, value in fields if name == b"authorization"]
    found = BEARER.fullmatch(values[0]) if len(values) == 1 else None
    if not found:
        raise NoRequest(401, "NoToken")
    return found[1].decode()


def words_in(wish, segment, query, body):
    """The values of the wish's names, in their order."""
    pairs = parse_qsl(query, keep_blank_values=True, errors="replace", max_num_fields=None)
    words = []
    for name in NAMES.get(wish, []):
        values = [value for other, value in pairs if other == name]
        if name == "key" or (wish, name) == ("renew", "name"):
            values = [segment]
        if name == "token":
            values = [body.decode("latin-1")]
        if not values and name == "date" and wish != "day":
            words.append(None)
            continue
        value = VALUES[name](values[0]) if len(values) == 1 else None
        if value is None:
            raise NoRequest(400, "BadQuery", name)
        words.append(value)
    return words


def spelled(data):
    """The token, the wish and the words of an input, or `NoRequest`."""
    head, rest = head_in(data)
    method, target, fields = parsed_head(head)
    body = body_in(rest, fields)
    path, _, query = target.partition("?")
    wish, segment = routed(method, path)
    token = token_in(fields)
    words = words_in(wish, segment, query, body)
    return token, wish, [*words, body] if wish == "lodge" else words


class Second:
    """Answers inputs as bytes by the second register."""

    def __init__(self, day):
        self.register = Register(day)

    def answer(self, data):
        """The reply's bytes, or None where nothing is said."""
        try:
            return self.register.answer_to(*spelled(data))
        except NoRequest as refusal:
            return refusal.reply
        except Unsaid:
            return None
