"""Files of statements as they are checked: of ten three entities, three persons and four relationships, all of them new."""


def statement(number, record, kind, details, extra=""):
    return (
        f'{{"statementId":"statement-{number:06}","statementDate":"2024-01-10",'
        f'"declarationSubject":"c1","recordId":"{record}","recordType":"{kind}"{extra},'
        f'"recordDetails":{{{details}}}}}'
    )


def padded(text, size):
    """The statement with members that are not read, so that it has about so many bytes."""
    source = '"source":{"type":["selfDeclaration"],"description":"%s"},'
    room = max(0, size - len(text) - len(source) + 2)
    return "{" + source % ("padding " * (room // 8 + 1))[:room] + text[1:]


def entity(n):
    return statement(
        n,
        f"entity-{n:06}",
        "entity",
        f'"entityType":{{"type":"registeredEntity"}},"name":"Company {n} Limited",'
        f'"identifiers":[{{"scheme":"GB-COH","id":"{n:08}"}},{{"scheme":"XI-LEI","id":"LEI{n:017}"}}]',
    )


def person(n):
    return statement(
        n,
        f"person-{n:06}",
        "person",
        f'"personType":"knownPerson","names":[{{"fullName":"Person {n}"}}]',
    )


def relationship(n, subject, party):
    return statement(
        n,
        f"relationship-{n:06}",
        "relationship",
        f'"subject":"{subject}","interestedParty":"{party}","interests":['
        '{"type":"shareholding","directOrIndirect":"direct","share":{"minimum":25,"exclusiveMaximum":50}},'
        '{"type":"votingRights","directOrIndirect":"direct","share":{"minimum":50,"exclusiveMinimum":true,"maximum":75}}]',
    )


def mix(count, size=900):
    """A file of so many statements, ten by ten, each of about so many bytes."""
    items = []
    for n in range(count):
        ten, part = n - n % 10, n % 10
        if part < 3:
            text = entity(n)
        elif part < 6:
            text = person(n)
        else:
            text = relationship(n, f"entity-{ten + part % 3:06}", f"person-{ten + 3 + part % 3:06}")
        items.append(padded(text, size))
    return "[" + ",".join(items) + "]"
