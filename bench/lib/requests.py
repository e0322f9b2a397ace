"""The requests that registers are asked by: agents with lodgings of three statements each."""

AGENTS = ["alder", "birch", "cedar", "damson"]
REGISTRAR, DAY = "registrar-token-0001", "2024-02-01"


def request(agent, method, target, body=""):
    token = REGISTRAR if agent == "registrar" else f"{agent}-token-000001"
    return (
        f"{method} {target} HTTP/1.1\r\nHost: localhost\r\nAuthorization: Bearer {token}\r\n"
        f"Content-Length: {len(body)}\r\n\r\n{body}"
    )


def statement(sid, record, kind, details, declaration):
    return (
        f'{{"statementId":"{sid}","statementDate":"2024-01-10","declarationSubject":"{declaration}",'
        f'"recordId":"{record}","recordType":"{kind}","recordDetails":{{{details}}}}}'
    )


def entity(sid, record, identifier, declaration="c1"):
    return statement(
        sid,
        record,
        "entity",
        f'"entityType":{{"type":"registeredEntity"}},"name":"Company {record}",'
        f'"identifiers":[{{"scheme":"GB-COH","id":"{identifier}"}}]',
        declaration,
    )


def person(sid, record, declaration="c1"):
    return statement(
        sid,
        record,
        "person",
        f'"personType":"knownPerson","names":[{{"fullName":"Person {record}"}}]',
        declaration,
    )


def held(sid, record, subject, party, declaration="c1"):
    return statement(
        sid,
        record,
        "relationship",
        f'"subject":"{subject}","interestedParty":"{party}","interests":['
        '{"type":"votingRights","directOrIndirect":"direct","share":{"minimum":50,"exclusiveMinimum":true,"maximum":75}}]',
        declaration,
    )


def lodged(number, tail=""):
    """A file of an entity, a person, and who holds the entity: the person, or the next entity."""
    at = number % 7
    party = f"p{at}" if number % 2 else f"e{(at + 1) % 7}"
    items = [
        entity(f"s{number}a{tail}", f"e{at}{tail}", f"{at:08}{tail}"),
        person(f"s{number}b{tail}", f"p{at}{tail}"),
        held(f"s{number}c{tail}", f"r{at}-{number % 2}{tail}", f"e{at}{tail}", party + tail),
    ]
    return "[" + ",".join(items) + "]"


def lodging(agent, key, due, file):
    return request(agent, "PUT", f"/filings/{key}?due={due}", file)


def enrolments(names):
    return [request("registrar", "POST", f"/agents?name={n}", f"{n}-token-000001") for n in names]


def stored(folder, requests, name="request"):
    """The files of these requests, one each."""
    paths = [folder / f"{name}-{at:03}.http" for at in range(len(requests))]
    for path, one in zip(paths, requests):
        path.write_bytes(one.encode())
    return paths
