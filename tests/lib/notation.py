"""The notation of the rows: files of statements, asks in words, and requests as bytes."""
import re
from pathlib import Path

ROWS = Path(__file__).resolve().parent.parent / "rows"
KINDS = {"V": "votingRights", "S": "shareholding", "B": "appointmentOfBoard"}
TYPES = {"E": "entity", "P": "person", "R": "relationship"}
ESCAPES = {"r": b"\r", "n": b"\n", "t": b"\t", "\\": b"\\"}


class Unread(Exception):
    """The words are none of the notation."""


def first_request():
    """The request of the first lodging, byte for byte."""
    return (ROWS / "first-lodging.http").read_bytes()


def first_file():
    return first_request().split(b"\r\n\r\n", 1)[1]


# ---- repetitions


def numbered(text, name, number):
    """The text with the number in place of `$i`, and another number in place of `$(i+1)`."""
    text = re.sub(rf"\$\({name}([+-]\d+)\)", lambda found: str(number + int(found[1])), text)
    return text.replace(f"${name}", str(number))


def repeated(found):
    count, name, first, last, text = found.groups()
    if count:
        return text * int(count)
    return "".join(numbered(text, name, number) for number in range(int(first), int(last) + 1))


def expanded(text):
    """The text with its repetitions written out: `$<3|x$>` is xxx, `$<i 1..3|k$i$>` is k1k2k3."""
    return re.sub(r"\$<(?:(\d+)|([a-z]) (\d+)\.\.(\d+))\|(.*?)\$>", repeated, text)


def unescaped(text):
    r"""The bytes of a text with `\r`, `\n`, `\t`, `\\` and `\xff`."""
    def byte(found):
        word = found[1]
        return ESCAPES[word] if word in ESCAPES else bytes([int(word[1:], 16)])
    parts = re.split(r"(\\(?:[rnt\\]|x[0-9a-f]{2}))", text)
    return b"".join(
        byte(re.match(r"\\(.*)", part)) if at % 2 else part.encode() for at, part in enumerate(parts)
    )


# ---- files


def interest(word):
    """A kind, then a number or the share as it stands, then a comma and more members as they stand."""
    found = re.fullmatch(r"([VSB])(\{[^}]*\}|[^,]*)(,.+)?", word)
    if not found:
        raise Unread(f"no interest: {word}")
    kind, share, members = KINDS[found[1]], found[2], found[3] or ""
    if share and not share.startswith("{"):
        share = f'{{"exact":{share}}}'
    told = f',"share":{share}' if share else ""
    return f'{{"type":"{kind}"{told}{members}}}'


def entity_details(words):
    kind, identifiers = "registeredEntity", []
    for word in words:
        if word.startswith("#"):
            scheme, name = word[1:].split("/", 1)
            identifiers.append(f'{{"scheme":"{scheme}","id":"{name}"}}')
        elif word[0] not in "+@":
            kind = word
    listed = f',"identifiers":[{",".join(identifiers)}]' if identifiers else ""
    return f'{{"entityType":{{"type":"{kind}"}}{listed}}}'


def relationship_details(words):
    if not words or "<-" not in words[0]:
        raise Unread("a relationship has its ends as a<-b")
    subject, party = words[0].split("<-", 1)
    interests = ",".join(interest(word) for word in words[1:] if word[0] not in "+@")
    return f'{{"subject":"{subject}","interestedParty":"{party}","interests":[{interests}]}}'


def details(kind, words):
    if kind == "E":
        return entity_details(words)
    return '{"personType":"knownPerson"}' if kind == "P" else relationship_details(words)


def marked(words, mark, absent):
    return next((word[1:] for word in words if word.startswith(mark)), absent)


def statement(text, declaration):
    words = text.split(" ")
    if len(words) < 3 or words[0] not in TYPES:
        raise Unread(f"no statement: {text}")
    kind, name, record, *others = words
    day, status = marked(others, "@", "2024-01-10"), marked(others, "+", None)
    told = f'"recordStatus":"{status}",' if status else ""
    return (
        f'{{"statementId":"{name}","statementDate":"{day}","declarationSubject":"{declaration}",'
        f'"recordId":"{record}","recordType":"{TYPES[kind]}",{told}"recordDetails":{details(kind, others)}}}'
    )


def file_of(words):
    """The bytes of a file: FIRST, a text of JSON or of no JSON as it stands, or statements in words."""
    if words == "FIRST":
        return first_file()
    if words.startswith("raw "):
        return unescaped(words[4:])
    if words[:1] in ("[", "{"):
        return words.encode()
    statements, _, declaration = words.partition(" in ")
    listed = ",".join(statement(text, declaration or "c1") for text in statements.split("; "))
    return f"[{listed}]".encode()


# ---- requests


def token_of(caller):
    return "registrar-token-0001" if caller == "registrar" else f"{caller}-token-000001"


def request(caller, method, target, body=b""):
    head = (
        f"{method} {target} HTTP/1.1\r\nHost: localhost\r\n"
        f"Authorization: Bearer {token_of(caller)}\r\nContent-Length: {len(body)}\r\n\r\n"
    )
    return head.encode() + body


def dated(target, words):
    return f"{target}&date={words[0]}" if words else target


def spelled(wish, words):
    """The method, the target and the body of what is asked for in words."""
    if wish == "lodge":
        key, due, file = words.split(" ", 2)
        return "PUT", f"/filings/{key}?due={due}", file_of(file)
    names = words.split()
    if wish == "withdraw":
        return "DELETE", f"/filings/{names[0]}", b""
    if wish in ("filings", "published") and not names:
        return "GET", f"/{wish}", b""
    if wish == "file":
        return "GET", f"/filings/{names[0]}/file", b""
    if wish == "snapshot":
        agent, declaration, *date = names
        return "GET", dated(f"/snapshot?agent={agent}&declaration={declaration}", date), b""
    if wish in ("chains", "evidence"):
        agent, declaration, record, *date = names
        return "GET", dated(f"/{wish}?agent={agent}&declaration={declaration}&record={record}", date), b""
    if wish == "entities":
        scheme, id, *date = names
        return "GET", dated(f"/entities?scheme={scheme}&id={id}", date), b""
    if wish == "day":
        return "POST", f"/day?date={names[0]}", b""
    if wish == "enrol":
        return "POST", f"/agents?name={names[0]}", names[1].encode()
    if wish == "renew":
        return "PUT", f"/agents/{names[0]}", names[1].encode()
    if wish == "register":
        return "GET", "/register", b""
    raise Unread(f"nobody asks for {wish}")


def request_of(ask):
    """The bytes of an ask: in words, by a method and a target, as a front of another, or as they stand."""
    if ask == "raw":
        return b""
    if ask.startswith("raw @"):
        name, _, behind = ask[5:].partition(" ")
        return (ROWS / name).read_bytes() + unescaped(behind)
    if ask.startswith("raw "):
        return unescaped(ask[4:])
    if ask.startswith("cut "):
        _, length, rest = ask.split(" ", 2)
        return request_of(rest)[: int(length)]
    caller, wish, *rest = ask.split(" ", 2)
    words = rest[0] if rest else ""
    if wish.isupper():
        target, _, body = words.partition(" ")
        return request(caller, wish, target, unescaped(body))
    return request(caller, *spelled(wish, words))
