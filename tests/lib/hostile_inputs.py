"""Inputs that somebody hostile may send: requests from a dictionary, the worked ones, and what chance makes of them.

A number stands in each input at `N0000000`, and in alder's drafts at `unseen-00000000` too: the first makes
identifiers that are new, the second is the word of the draft, which nobody else may be told.
"""
import json
import re

from lib.notation import ROWS, first_request, token_of
from lib.program import TOP
from lib.random_register import WRONG, details, places_in
from lib.rows import all_rows

NUMBER, WORD = "N0000000", "unseen-00000000"
WORDS = re.compile(rb"unseen-\d{8}")
LODGED_AS_FIRST = re.compile(rb"\APUT /filings/[fk]\d\?")
LONGEST_WORKED = 2500
CALLERS = ["alder"] * 8 + ["birch"] * 8 + ["registrar"] * 2 + ["cedar", "nobody"]
RECORDS = ["e1", "e2", "e3", "p1", "p2", "r1", "r2", "r3", "r4"]
TYPES = {"e": "entity", "p": "person", "r": "relationship"}
DATES = ["2024-01-10"] * 6 + ["2024-01-11", "2024-01-15", "2024-02-03T08:00:00Z"]
DUE = ["2024-02-01"] * 4 + ["2024-02-02", "2024-02-05"]
DRAFT_DUE = ["2024-03-01", "2024-03-02", "2024-04-01", "2024-12-31", "9999-12-31"]
ASKED_ON = ["2024-01-10", "2024-01-12", "2024-02-01", "2024-03-01", "2023-12-31", "9999-12-31"]
KEYS = ["a1", "d1", "d2", "d3", "b1", "f1", "f2"] + [f"k{number}" for number in range(200)]
LODGING = ["lodge"] * 9
READING = ["filings", "file", "published", "snapshot", "snapshot", "chains", "chains", "chains", "evidence", "evidence", "entities", "entities"]
WISHES = LODGING + READING + ["file", "withdraw", "withdraw", "enrol", "odd"]
METHODS = ["GET", "PUT", "DELETE", "POST", "HEAD", "PATCH", "OPTIONS", "get", "G@T", ""]
TARGETS = [
    "/", "*", "/filings", "/filings/", "/filings/f1", "/filings/f1/", "/filings/f1/file", "/filings//file",
    "/published", "/snapshot", "/chains", "/evidence", "/evidence/", "/entities", "/entities/", "/day", "/agents", "/agents/", "/agents/alder", "/agents/alder/", "/register", "/register/", "/nothing", "http://localhost/filings", "/FILINGS",
    "/filings/%66%31", "/filings/../published", "//filings", "/filings?", "/filings#x", "/filings/f1/file/x", "filings",
]
VALUES = [
    "", "alder", "birch", "cedar", "Alder", "c1", "c9", "e1", "e9", "p1", "2024-02-01", "2024-02-30", "2024-13-01",
    "0000-01-01", "10000-01-01", "-0001-01-01", "2024-2-1", "2024-02-01T", "%00", "%ff", "%", "%c3%a9", "+", "a%26b=c",
    "1" * 40, "x" * 255, "x" * 256, "a" * 32, "a" * 33, "k" * 64, "k" * 65, "..", "%2e%2e", "é", "\u202e", "null",
]
NAMES = ["agent", "declaration", "record", "scheme", "id", "date", "due", "name", "key", "token", "Due", "da%74e", "x", ""]
FIELDS = [
    "Content-Length: 0", "Content-Length: 1", "Content-Length: 99999999999999999999", "Content-Length: 1048576",
    "Content-Length: 1048577", "Content-Length: +5", "Content-Length: -1", "Content-Length:", "Content-Length: 1,1",
    "Content-Length: 0x10", "Content-Length: 18446744073709551616", "Content-Length: 4294967296", "Content-Length : 1",
    "Transfer-Encoding: chunked", "Transfer-Encoding:", "Expect: 100-continue", "Connection: keep-alive", "Host:",
    "Upgrade: h2c", "X:", ":", ": x", "X", "X Y: z", " folded: line", "\tfolded", "X: \x00", "X: \x7f", "X: a\rb",
    "Authorization: Bearer birch-token-000001", "Authorization: Basic YTpi", "Authorization:",
    "authorization: bearer x",
    "Proxy-Authorization: Bearer birch-token-000001", "Cookie: a=b", "If-None-Match: *", "Range: bytes=0-3",
]
VERSIONS = ["HTTP/1.0", "HTTP/2.0", "HTTP/1.2", "http/1.1", "HTTP/1.1 ", "HTTP/01.1", "HTTP/1.1.1", "", "ICY"]
NUMBERS = [b"0", b"-0", b"00", b"1e400", b"1e-999", b"33.33", b"25.0", b"101", b"-1", b"2147483648", b"4294967296"]
NUMBERS += [b"9223372036854775808", b"18446744073709551615", b"18446744073709551616", b"9" * 60, b"NaN", b"1_0", b"1e2"]
BAD_TEXT = [b"\xff", b"\xc0\xaf", b"\xed\xa0\x80", b"\xf4\x90\x80\x80", b"\xe2\x82", b"\xef\xbb\xbf", b"\x00", b"\x1f"]
BAD_TEXT += [b"\\ud800", b"\\u0000", b"\\x", b"\\", b'"', b"\xe2\x80\xa8", b"\xf0\x9f\x8f\xa2"]
JSON_PARTS = [b"{", b"}", b"[", b"]", b",", b":", b'"', b"null", b"true", b"[]", b"{}"]
JSON_PARTS += [b"[[[[[[[[", b"]]]]]]]]", b"{},"]
MEMBERS = [
    "statementId", "statementDate", "declarationSubject", "recordId", "recordType", "recordStatus", "recordDetails",
    "entityType", "name", "names", "fullName", "identifiers", "scheme", "id", "personType", "subject",
    "interestedParty", "interests", "type", "share", "exact", "minimum", "maximum", "exclusiveMinimum", "exclusiveMaximum",
    "directOrIndirect", "startDate", "endDate",
]
MEMBERS = [f'"{name}"'.encode() for name in MEMBERS]
ODD_VALUES = [*WRONG, "unseen", [[]], {"": None}, [{}] * 101, 10**30, -(10**18), 1e308, 0.1, "\ud83c\udfe2", "a\u0000b"]
LARGE = 1_048_576
# Files that are too long, empty, or no list.
ODD_FILES = [b"[%s{}]" % (b"{}," * count) for count in (999, 1000, 1000)]
ODD_FILES += [b"[]", b"{}", b"", b"null", b"[[]]", b"[7]"]
ODD_TOKENS = ["short", "x" * 64, "x" * 65, token_of("alder"), "é" * 20]
NO_TOKENS = [None, "short", "x" * 65, "alder token", "\x7f" * 20]
DAYS = ["2024-02-01", "2024-02-02", "2024-03-01", "2024-01-31"]


def pick(rng, items):
    return items[int(rng.random() * len(items))]


def place_in(rng, data):
    return int(rng.random() * (len(data) + 1))


# ---- files


def statement(rng, at, caller, hidden):
    """A statement that mostly fits; one that is hidden has the draft's word in its texts."""
    record = pick(rng, RECORDS)
    told = {
        "statementId": f"{caller[:1]}{NUMBER}-{at}",
        "statementDate": pick(rng, DATES),
        "declarationSubject": pick(rng, ["c1", "c1", "c2"]),
        "recordId": record,
        "recordType": TYPES[record[0]],
        "recordDetails": details(rng, TYPES[record[0]]),
    }
    if rng.random() < 0.2:
        told["recordStatus"] = pick(rng, ["new", "updated", "closed"])
    return with_word(rng, told) if hidden else told


def with_word(rng, told):
    """The statement with the draft's word in its identifier and in the texts that a reply may show."""
    told["statementId"] += WORD
    shown = told["recordDetails"]
    if told["recordType"] == "entity":
        shown["name"] = f"Company {WORD}"
        shown["identifiers"] = [{"scheme": "X", "id": "1"}, {"scheme": WORD, "id": WORD}]
    if told["recordType"] == "person":
        shown["names"] = [{"fullName": f"Person {WORD}"}]
    if rng.random() < 0.3:
        told["recordId"] = f"{told['recordId'][0]}-{WORD}"
    if rng.random() < 0.2:
        told["declarationSubject"] = WORD
    return told


def spoiled(rng, statements):
    """Something odd at one place, or nothing where something stood."""
    for _ in range(pick(rng, [1, 1, 2])):
        places = list(places_in(statements))
        if not places:
            break
        holder, place = pick(rng, places)
        if rng.random() < 0.2:
            del holder[place]
        else:
            holder[place] = json.loads(json.dumps(pick(rng, ODD_VALUES)))
    return statements


def file_made(rng, caller, hidden):
    statements = [statement(rng, at, caller, hidden) for at in range(pick(rng, [1, 1, 2, 3, 4]))]
    if rng.random() < 0.3:
        statements = spoiled(rng, statements)
    return json.dumps(statements, ensure_ascii=rng.random() < 0.2, separators=(",", ":")).encode(errors="replace")


# ---- requests


def head_of(method, target, token, length):
    told = f"Authorization: Bearer {token}\r\n" if token else ""
    line = f"{method} {target} HTTP/1.1\r\nHost: localhost\r\n"
    return f"{line}{told}Content-Length: {length}\r\n\r\n".encode()


def query(rng, **words):
    """The words of a query, a few of them with another value, twice there, left out or under another name."""
    pairs = [(name, value) for name, value in words.items() if value is not None]
    chance = rng.random()
    if pairs and chance < 0.16:
        at = int(rng.random() * len(pairs))
        if chance < 0.08:
            pairs[at] = (pairs[at][0], pick(rng, VALUES))
        elif chance < 0.1:
            pairs.append(pairs[at])
        elif chance < 0.12:
            del pairs[at]
        else:
            pairs.insert(at, (pick(rng, NAMES), pick(rng, VALUES)))
    return "&".join(f"{name}={value}" for name, value in pairs)


def date_or_none(rng):
    return pick(rng, ASKED_ON) if rng.random() < 0.4 else None


def asked(rng, wish, keys=KEYS):
    """The method and the target of a wish that has no body; the keys are such as were used."""
    agent, declaration = pick(rng, ["alder", "birch", "birch", "cedar"]), pick(rng, ["c1", "c1", "c2", "c9", WORD])
    if wish == "withdraw":
        return "DELETE", f"/filings/{pick(rng, keys)}"
    if wish == "file":
        return "GET", f"/filings/{pick(rng, keys)}/file"
    if wish == "snapshot":
        words = query(rng, agent=agent, declaration=declaration, date=date_or_none(rng))
        return "GET", f"/snapshot?{words}"
    if wish in ("chains", "evidence"):
        record = pick(rng, ["e1", "e1", "e2", "e3", "e9", "p1"])
        words = query(rng, agent=agent, declaration=declaration, record=record, date=date_or_none(rng))
        return "GET", f"/{wish}?{words}"
    if wish == "entities":
        scheme, id = pick(rng, ["X", "X", "Y", "Z", WORD]), pick(rng, ["1", "1", "1", "2"])
        return "GET", f"/entities?{query(rng, scheme=scheme, id=id, date=date_or_none(rng))}"
    if wish == "odd":
        return pick(rng, METHODS), pick(rng, TARGETS)
    return "GET", f"/{wish}"


class Maker:
    """Makes inputs one after the other; what it makes depends on its source of chance alone."""

    def __init__(self, rng, worked):
        self.rng = rng
        self.worked = worked
        self.used = {who: KEYS[:5] for who in ("alder", "birch", "cedar", "registrar", "nobody")}
        self.files = {who: [file_made(rng, who, False) for _ in range(24)] for who in ("alder", "birch", "cedar")}
        self.drafts = [file_made(rng, "alder", True) for _ in range(24)]

    def lodging(self, caller):
        """A lodging; most of alder's are drafts with a word."""
        rng = self.rng
        hidden = caller == "alder" and rng.random() < 0.7
        data = pick(rng, self.drafts if hidden else self.files.get(caller, self.files["birch"]))
        if rng.random() < 0.02:
            data = pick(rng, ODD_FILES)
        due = pick(rng, DRAFT_DUE if hidden or rng.random() < 0.3 else DUE)
        key = pick(rng, KEYS)
        self.used[caller] = [*self.used[caller][-20:], key]
        target = f"/filings/{key}?{query(rng, due=due)}"
        return head_of("PUT", target, token_of(caller), len(data)) + data

    def registrars(self):
        """What the registrar asks for; the day moves seldom, and mostly by little."""
        rng, caller = self.rng, "registrar" if self.rng.random() < 0.9 else "alder"
        if rng.random() < 0.3:
            day = "9999-12-31" if rng.random() < 0.02 else pick(rng, DAYS)
            return head_of("POST", f"/day?{query(rng, date=day)}", token_of(caller), 0)
        if rng.random() < 0.1:
            return head_of("GET", "/register", token_of(caller), 0)
        name = pick(rng, ["cedar", "damson", "elm", "alder", "x" * 32, "Cedar"])
        token = token_of(name) if rng.random() < 0.8 else pick(rng, [*ODD_TOKENS, token_of("alder"), token_of("birch")])
        target, body = f"/agents?{query(rng, name=name)}", token.encode()
        # (alder keeps its token, by which most is asked)
        if name != "alder" and rng.random() < 0.3:
            return head_of("PUT", f"/agents/{name}", token_of(caller), len(body)) + body
        return head_of("POST", target, token_of(caller), len(body)) + body

    def made(self):
        rng = self.rng
        caller, wish = pick(rng, CALLERS), pick(rng, WISHES)
        if wish == "enrol":
            return self.registrars()
        if wish == "lodge":
            return self.lodging(caller)
        token = token_of(caller) if rng.random() < 0.98 else pick(rng, NO_TOKENS)
        return head_of(*asked(rng, wish, self.used[caller]), token, 0)

    def reworked(self):
        """A worked request; a lodging mostly under another key."""
        data = pick(self.rng, self.worked)
        if self.rng.random() < 0.8:
            return LODGED_AS_FIRST.sub(f"PUT /filings/{pick(self.rng, KEYS)}?".encode(), data)
        return data

    def input(self, number):
        """The next input, with its number."""
        rng = self.rng
        data = self.made() if rng.random() < 0.65 else self.reworked()
        for _ in range(pick(rng, [0, 0, 0, 1, 1, 1, 2, 3])):
            before = data
            data = pick(rng, CHANGES)(rng, data)
            if rng.random() < 0.7:
                data = with_length(before, data)
        if rng.random() < 0.0005:
            data = pick(rng, ENLARGED)(rng, data)
        return numbered(data, number)


def numbered(data, number):
    """The bytes with the input's number in its places, which is as long as what stood there."""
    data = data.replace(NUMBER.encode(), b"N%07d" % number)
    return data.replace(WORD.encode(), b"unseen-%08d" % number)


def worked_requests():
    """The requests of the rows and of the example day; no fronts, long ones or counted ones, and few that move the day.

    No token of alder or birch is renewed, by which most is asked.
    """
    first = first_request()
    asked_for = {it.request for row in all_rows() for it in row.exchanges()}
    asked_for |= {path.read_bytes() for path in (TOP / "examples" / "day").glob("*.http")}
    fronts = {first[:length] for length in range(len(first))}
    kept = [data for data in asked_for - fronts if len(data) <= LONGEST_WORKED]
    moving = sorted(data for data in kept if data.startswith(b"POST /day"))
    left_out = re.compile(rb"POST /day|PUT /filings/k\d{2}|PUT /agents/(alder|birch)")
    return sorted(data for data in kept if not left_out.match(data)) + moving[:2] + [first]


# ---- changes of bytes


def flipped(rng, data):
    at = place_in(rng, data)
    return data[:at] + bytes([data[at] ^ 1 << int(rng.random() * 8)]) + data[at + 1 :] if at < len(data) else data


def byte_put(rng, data):
    at = place_in(rng, data)
    return data[:at] + bytes([int(rng.random() * 256)]) + data[at + int(rng.random() * 2) :]


def cut(rng, data):
    return data[: place_in(rng, data)]


def front_lost(rng, data):
    return data[int(rng.random() * 40) :]


def slice_lost(rng, data):
    at = place_in(rng, data)
    return data[:at] + data[at + int(rng.random() * 20) :]


def slice_doubled(rng, data):
    at = place_in(rng, data)
    end = at + int(rng.random() * 40)
    return data[:end] + data[at:]


def slices_swapped(rng, data):
    one, two, three = sorted(place_in(rng, data) for _ in range(3))
    return data[:one] + data[two:three] + data[one:two] + data[three:]


def put(rng, data, items):
    at = place_in(rng, data)
    return data[:at] + pick(rng, items) + data[at:]


def bad_text_put(rng, data):
    return put(rng, data, BAD_TEXT)


def number_changed(rng, data):
    """A run of digits becomes another number."""
    found = list(re.finditer(rb"\d+", data))
    if not found:
        return data
    it = pick(rng, found)
    return data[: it.start()] + pick(rng, NUMBERS) + data[it.end() :]


# ---- changes of heads


def parted(data):
    head, end, body = data.partition(b"\r\n\r\n")
    return head, end, body


def lines_changed(change):
    """A change of the lines of a head."""
    def changed(rng, data):
        head, end, body = parted(data)
        return b"\r\n".join(change(rng, head.split(b"\r\n"))) + end + body
    return changed


def with_line(rng, lines):
    at = 1 + int(rng.random() * len(lines))
    return lines[:at] + [pick(rng, FIELDS).encode()] + lines[at:]


def line_doubled(rng, lines):
    at = int(rng.random() * len(lines))
    return lines[:at] + [lines[at]] + lines[at:]


def line_lost(rng, lines):
    at = int(rng.random() * len(lines))
    return lines[:at] + lines[at + 1 :]


def line_moved(rng, lines):
    lines = list(lines)
    lines.insert(int(rng.random() * len(lines)), lines.pop(int(rng.random() * len(lines))))
    return lines


def case_changed(rng, lines):
    at = int(rng.random() * len(lines))
    return lines[:at] + [lines[at].swapcase()] + lines[at + 1 :]


def many_lines(rng, lines):
    return lines + [b"A: b"] * pick(rng, [59, 60, 61, 62, 63, 64, 200])


def version_changed(rng, lines):
    method, _, rest = lines[0].partition(b" ")
    target = rest.rpartition(b" ")[0]
    return [b" ".join([method, target, pick(rng, VERSIONS).encode()])] + lines[1:]


def method_changed(rng, lines):
    return [pick(rng, METHODS).encode() + b" " + lines[0].partition(b" ")[2]] + lines[1:]


def target_changed(rng, lines):
    """More of a query behind the target, or another target."""
    parts = lines[0].split(b" ")
    if len(parts) == 3:
        word = f"{pick(rng, NAMES)}={pick(rng, VALUES)}"
        parts[1] = pick(rng, [parts[1] + f"{pick(rng, '?&;')}{word}".encode(), pick(rng, TARGETS).encode()])
    return [b" ".join(parts)] + lines[1:]


def length_changed(rng, data):
    """Another length than the body has: by a little, by much, or in another form."""
    head, end, body = parted(data)
    told = len(body)
    forms = [told + 1, max(told - 1, 0), told + 1000, 0, told * 10, f"000{told}", f"+{told}", f"{told} ", f"{told}\t"]
    forms += [hex(told)]
    forms += [f"{told},{told}", f"{told}.0", 1_048_576, 1_048_577, 2**63, 2**64 + told, "9" * 200, "", "x", f"-{told}"]
    length = str(pick(rng, forms)).encode()
    return re.sub(rb"(?i)(content-length:)[^\r\n]*", lambda found: found[1] + b" " + length, head) + end + body


def line_feeds_alone(_rng, data):
    head, end, body = parted(data)
    return head.replace(b"\r\n", b"\n") + (b"\n\n" if end else b"") + body


def carriage_return_lost(rng, data):
    found = [it.start() for it in re.finditer(rb"\r\n", data[:2000])]
    if not found:
        return data
    at = pick(rng, found)
    return data[:at] + data[at + pick(rng, [1, 1, 2]) :]


def blank_put_before(rng, data):
    return pick(rng, [b"\r\n", b"\n", b"\r\n\r\n", b" ", b"\x00", b"\xef\xbb\xbf"]) + data


def another_behind(_rng, data):
    return data + data


def with_length(before, data):
    """The bytes with the length that their body has now, where it was right before."""
    told = re.search(rb"\r\nContent-Length: (\d{1,7})\r\n", data)
    _, end, was = parted(before)
    head, ends, body = parted(data)
    if not told or not end or not ends or int(told[1]) != len(was) or told.end() > len(head) + 2:
        return data
    return data[: told.start(1)] + b"%d" % len(body) + data[told.end(1) :]


# ---- changes of bodies


def body_changed(change):
    def changed(rng, data):
        head, end, body = parted(data)
        return head + end + change(rng, body) if body else data
    return changed


def json_put(rng, body):
    return put(rng, body, JSON_PARTS)


def member_renamed(rng, body):
    found = list(re.finditer(rb'"\w+"(?=:)', body))
    if not found:
        return body
    it = pick(rng, found)
    return body[: it.start()] + pick(rng, MEMBERS) + body[it.end() :]


def member_doubled(rng, body):
    """A member stands twice in its object, with another value before or behind it."""
    found = list(re.finditer(rb'"\w+":("[^"]*"|\d+|true|null)', body))
    if not found:
        return body
    it = pick(rng, found)
    name = it[0].partition(b":")[0]
    other = name + b":" + pick(rng, [b"null", b"7", b'"x"', b"[]", b"{}", it[1]])
    pair = pick(rng, [other + b"," + it[0], it[0] + b"," + other])
    return body[: it.start()] + pair + body[it.end() :]


def value_nested(rng, body):
    """A value becomes the innermost of nested lists or objects."""
    found = list(re.finditer(rb':("[^"]*"|\d+)', body))
    depth = pick(rng, [1, 2, 100, 120, 126, 127, 128, 1000, 5000])
    before, behind = pick(rng, [(b"[", b"]"), (b'{"a":', b"}")])
    if not found:
        return before * depth + body + behind * depth
    it = pick(rng, found)
    return body[: it.start(1)] + before * depth + it[1] + behind * depth + body[it.end() :]


def value_spoiled(rng, body):
    try:
        value = json.loads(body)
        return json.dumps(spoiled(rng, value), separators=(",", ":")).encode()
    except (ValueError, RecursionError):
        return body


def statement_repeated(rng, body):
    """The last statement once more, or so often that there are too many."""
    inner = body[1:-1]
    if body[:1] != b"[" or len(inner) >= 2000:
        return body
    return b"[" + b",".join([inner] * pick(rng, [2, 2, 3, 10])) + b"]"


def body_of_blanks(rng, data):
    """A body of about the most bytes."""
    head, _, body = parted(data)
    length = LARGE + pick(rng, [-1, 0, 1])
    head = re.sub(rb"(?i)(content-length:)[^\r\n]*", b"\\g<1> %d" % length, head)
    return head + b"\r\n\r\n" + body[:length].ljust(length, pick(rng, [b" ", b"[", b"\xff", b"0"]))


def head_enlarged(rng, data):
    """A head of about the most bytes."""
    head, end, body = parted(data)
    left = max(16_384 + pick(rng, [-1, 0, 1, 1000]) - len(head) - 9, 0)
    return head + b"\r\nX: " + b"x" * left + b"\r\n" + end[2:] + body


HEADS = [with_line, with_line, line_doubled, line_lost, line_moved, case_changed, many_lines]
HEADS += [version_changed, method_changed, target_changed, target_changed]
BODIES = [json_put, member_renamed, member_doubled, value_nested, value_spoiled, value_spoiled, statement_repeated]
BODIES += [bad_text_put, number_changed, flipped, byte_put, slice_lost, slice_doubled, slices_swapped]
CHANGES = [flipped, byte_put, cut, front_lost, slice_lost, slice_doubled, slices_swapped, bad_text_put, number_changed]
CHANGES += [length_changed, length_changed, line_feeds_alone, carriage_return_lost, blank_put_before, another_behind]
CHANGES += [lines_changed(change) for change in HEADS] + [body_changed(change) for change in BODIES]
ENLARGED = [body_of_blanks, head_enlarged]
