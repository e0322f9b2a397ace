"""Replies as bytes, from the interface's tables of phrases, fields and bodies."""
import re

from lib.notation import ROWS, Unread, first_file

# RFC 9110, section 15
PHRASES = {
    200: "OK",
    201: "Created",
    400: "Bad Request",
    401: "Unauthorized",
    403: "Forbidden",
    404: "Not Found",
    405: "Method Not Allowed",
    409: "Conflict",
    413: "Payload Too Large",
    422: "Unprocessable Entity",
    431: "Request Header Fields Too Large",
    503: "Service Unavailable",
}


def reply(status, body, allow=None):
    """A reply; one of status 401 tells how to authenticate, one of 405 the methods of its path."""
    line = ""
    if status == 401:
        line = "WWW-Authenticate: Bearer\r\n"
    if status == 405:
        line = f"Allow: {allow}\r\n"
    head = (
        f"HTTP/1.1 {status} {PHRASES[status]}\r\nContent-Type: application/json\r\n"
        f"Content-Length: {len(body)}\r\n{line}Connection: close\r\n\r\n"
    )
    return head.encode() + body


def exit_status(status):
    """What a run of `bor exchange` makes of a reply's status."""
    if status == 503:
        return 3
    return 1 if status >= 400 else 0


def replies_in(output):
    """The replies that an output consists of, as far as it does."""
    replies = []
    while output:
        head, end, rest = output.partition(b"\r\n\r\n")
        length = re.search(rb"\r\nContent-Length: (\d+)", head)
        if not end or not length:
            return replies + [output]
        length = int(length[1])
        replies.append(head + end + rest[:length])
        output = rest[length:]
    return replies


# ---- bodies in words


def filing(found):
    number, state, due = found.groups()
    return f'{{"due":"{due}","filing":{number},"state":"{state}"}}'


def refusal(found):
    name, field, place = found.groups()
    told = f'"field":"{field}",' if field else ""
    told += f'"place":{place},' if place else ""
    return f'{{{told}"refusal":"{name}"}}'


# Spaces, where the person's record stands, the links, and the name as a text of JSON.
PERSON = re.compile(r' +([^ "]+):(\d+)("(?:[^"\\]|\\.)*")?')


def person(found):
    named, links, name = found[1], found[2], found[3] or "null"
    agent, declaration, record = named.split("/") if "/" in named else ("alder", "c1", named)
    return f'{{"agent":"{agent}","declaration":"{declaration}","links":{links},"name":{name},"record":"{record}"}}'


def persons(words, ask, today):
    _, wish, agent, declaration, record, *date = ask.split(" ")
    if wish != "chains":
        raise Unread("persons are told of chains alone")
    if PERSON.sub("", words).strip():
        raise Unread(f"no persons:{words}")
    listed = ",".join(person(found) for found in PERSON.finditer(words))
    date = date[0] if date else today
    return (
        f'{{"agent":"{agent}","date":"{date}","declaration":"{declaration}",'
        f'"persons":[{listed}],"record":"{record}"}}'
    )


FORMS = [
    (re.compile(r"F\((\d+), (\w+), ([\d-]+)\)"), filing),
    (re.compile(r"([A-Z]\w*)(?:\((\w+)\))?(?: at (\d+))?"), refusal),
]


def body_of(words, ask, today):
    """The bytes of a reply's body, which stands as it is or in words."""
    if words == "FIRST":
        return first_file()
    if words[:1] in ("[", "{"):
        return words.encode()
    if words == "no persons":
        return persons("", ask, today).encode()
    if words.startswith("persons "):
        return persons(words[7:], ask, today).encode()
    for form, spelled in FORMS:
        found = form.fullmatch(words)
        if found:
            return spelled(found).encode()
    raise Unread(f"no body: {words}")


def reply_of(words, ask, today):
    """The status and the bytes of a reply in words."""
    if words.startswith("@"):
        text = (ROWS / words[1:]).read_bytes()
        return int(text.split(b" ")[1]), text
    status, _, body = words.partition(" ")
    body, _, allow = body.partition(" Allow: ")
    return int(status), reply(int(status), body_of(body, ask, today), allow)
