"""What a file says that the register takes and that won't count, or won't be shown."""
from dataclasses import dataclass

from bods_advice import name_of, nearest, shown
from bods_json import written
from bods_rules import ENTITIES, NAMED, PERSONS, TYPES, day_of, end_of, interest_faults, is_object, member, one_of, points_of, start_of, text

# The other types of interests of BODS 0.4, which make no holding here.
TRUST = ["settlor", "trustee", "protector", "beneficiaryOfLegalArrangement"]
NOMINEES = ["nominee", "nominator"]
OTHER = [
    "otherInfluenceOrControl",
    "seniorManagingOfficial",
    "controlViaCompanyRulesOrArticles",
    "controlByLegalFramework",
    "boardMember",
    "boardChair",
    "unknownInterest",
    "unpublishedInterest",
    "enjoymentAndUseOfAssets",
    "rightToProfitOrIncomeFromAssets",
    "rightsToSurplusAssetsOnDissolution",
    "rightsToProfitOrIncome",
    "rightsGrantedByContract",
    "conditionalRightsGrantedByContract",
]
LEGAL = ["registeredEntity", "legalEntity"]
NAMELESS = ["anonymousEntity", "unknownEntity", "anonymousPerson", "unknownPerson"]
OLD_ENDS = ["describedByEntityStatement", "describedByPersonStatement"]


@dataclass
class Warned:
    """A warning's name, the place of its statement, the path to what it is about, what is so, and what to write."""

    name: str
    place: int
    path: tuple
    says: str
    write: str = None


def items(value, name):
    """The items of a member that is a list; none where it is no list."""
    found = member(value, name)
    return found if isinstance(found, list) else []


def type_meant(it):
    """The type of a statement's record, also where its word is written otherwise."""
    word = it.get("recordType")
    return word if word in TYPES else nearest(word, TYPES)


class Statements:
    """The statements of a file by their declaration and record, and who is party to what."""

    def __init__(self, value, live=None):
        self.all = [(place, it) for place, it in enumerate(value, 1) if is_object(it) and is_object(it.get("recordDetails"))]
        self.live = live.last if live else {}
        self.by_record, self.by_id, self.declarations, self.parties, self.subjects, self.plain = {}, {}, {}, {}, {}, {}
        for _, it in self.all:
            declaration, record, details = text(it.get("declarationSubject")), text(it.get("recordId")), it["recordDetails"]
            self.by_record[declaration, record] = it
            self.by_id[text(it.get("statementId"))] = it
            self.declarations.setdefault(record, []).append(declaration)
            self.plain.setdefault((declaration, record and record.strip().lower()), record)
            if type_meant(it) == "relationship":
                self.parties.setdefault((declaration, text(details.get("interestedParty"))), []).append(it)
                self.subjects.setdefault((declaration, text(details.get("subject"))), []).append(it)

    def type_of(self, key):
        """The type of a record and whether it is closed, by this file or else by the register."""
        it = self.by_record.get(key)
        if it:
            return type_meant(it), it.get("recordStatus") == "closed"
        last = self.live.get(key)
        return (last.type, last.status == "closed") if last else None

    def named(self, key):
        """A record with the name that is shown of it."""
        it = self.by_record.get(key)
        name = name_of(it["recordDetails"]) if it else None
        return f"{written(name)} ({key[1]})" if name else f"record {shown(key[1])}"

    def kind(self, key):
        it = self.by_record.get(key)
        return text(member(it["recordDetails"].get("entityType"), "type")) if it else None


# ---- entities and persons


def entity_warnings(statements, it, place, path):
    details, kind = it["recordDetails"], it["recordDetails"].get("entityType")
    key = text(it.get("declarationSubject")), text(it.get("recordId"))
    word = member(kind, "type")
    if isinstance(kind, str) or one_of(ENTITIES)(word) is None:
        yield unknown_entity(kind, place, path)
    elif word not in LEGAL and key in statements.parties and key in statements.subjects:
        name = "Trust" if word == "arrangement" else "NoChainThrough"
        says = f"no chain leads through an entity of type {word}: who stands behind it isn't found behind what it holds"
        yield Warned(name, place, (*path, "entityType"), says)
    if text(details.get("name")) is None and word not in NAMELESS:
        yield Warned("NameNotShown", place, (*path, "name"), "the entity has no name that is a text, and is shown without one", '"name":".."')
    for at, item in enumerate(items(details, "identifiers")[:100]):
        if not (text(member(item, "scheme")) and text(member(item, "id"))):
            yield passed_over(item, place, (*path, "identifiers", at))


def unknown_entity(kind, place, path):
    word = kind if isinstance(kind, str) else member(kind, "type")
    says = f"{shown(word)} is no type of entity, so it is read as other: no chain leads through it"
    meant = nearest(word, ENTITIES)
    if isinstance(kind, str):
        says = "entityType is a text, and its type isn't read: it is other, and no chain leads through it"
    if word is None:
        says = "the entity has no entityType with a type, so it is other: no chain leads through it"
    told = f'"entityType":{{"type":{written(meant)}}}' if meant else '"entityType":{"type":"registeredEntity"}, or what it is'
    return Warned("UnknownWord", place, (*path, "entityType", "type"), says, told)


def passed_over(item, place, path):
    lacking = [name for name in ("scheme", "id") if not text(member(item, name))]
    says = f"the identifier is passed over, since it has no text {' and no text '.join(lacking)}: it joins this entity to no other"
    values = {name: member(item, name) for name in lacking}
    is_number = {name: isinstance(it, (int, float)) and not isinstance(it, bool) for name, it in values.items()}
    told = " and ".join(f'"{name}":"{values[name] if is_number[name] else ".."}"' for name in lacking)
    scheme_name = text(member(item, "schemeName"))
    if lacking == ["scheme"] and scheme_name:
        told += f" (schemeName {shown(scheme_name)} isn't read)"
    return Warned("IdentifierPassedOver", place, path, says, told)


def person_warnings(_statements, it, place, path):
    details = it["recordDetails"]
    word = details.get("personType")
    if one_of(PERSONS)(word) is None:
        meant = nearest(word, PERSONS)
        says = f"{shown(word)} is no type of person, so it is read as other; the person is named all the same"
        yield Warned("UnknownWord", place, (*path, "personType"), says, written(meant or "knownPerson"))
    names = items(details, "names")
    full = [text(member(name, "fullName")) for name in names]
    if (not full or full[0] is None) and word not in NAMELESS:
        yield name_not_shown(names, full, place, path)
    others = [name for name in names[1:] if member(name, "type") in ("legal", "individual")]
    if full and full[0] and others and member(names[0], "type") not in (None, "legal", "individual"):
        says = f"the first of names is shown, {shown(full[0])}, and another one is the legal name"
        yield Warned("OtherNameShown", place, (*path, "names"), says, f"{shown(others[0], 120)} as the first of names")


def name_not_shown(names, full, place, path):
    says = "the person is shown without a name: the fullName of the first of names is shown, and there is none"
    first = names[0] if names else None
    parts = [text(member(first, name)) for name in ("givenName", "patronymicName", "familyName")]
    told = " ".join(part for part in parts if part) or next((name for name in full if name), None) or ".."
    return Warned("NameNotShown", place, (*path, "names"), says, f'"fullName":{written(told)} in the first of names')


# ---- relationships


def relationship_warnings(statements, it, place, path):
    details = it["recordDetails"]
    for name in ("subject", "interestedParty"):
        yield from end_warnings(statements, it, name, place, (*path, name))
    interests = items(details, "interests")[:100]
    if not interests:
        yield Warned("NoHolding", place, path, "the relationship has no interests, so it makes no holding", '"interests":[..]')
    for at, interest in enumerate(interests):
        if is_object(interest):
            yield from interest_warnings(statements, it, interest, place, (*path, "interests", at))
    yield from share_warnings(statements, it, place, path)


def end_warnings(statements, it, name, place, path):
    value, declaration = it["recordDetails"].get(name), text(it.get("declarationSubject"))
    if is_object(value):
        yield from object_end(statements, value, name, place, path)
    elif isinstance(value, str):
        found = statements.type_of((declaration, value))
        allowed = ["entity"] if name == "subject" else ["entity", "person"]
        if not found:
            yield Warned("EndNotStated", place, path, *not_stated(statements, declaration, value))
        elif found[0] in TYPES and found[0] not in allowed:
            says = f"{shown(value)} is a record of type {found[0]}, so this makes no link"
            yield Warned("EndMakesNoLink", place, path, says, f"the recordId of an {' or a '.join(allowed)}")
        elif found[1]:
            yield Warned("EndMakesNoLink", place, path, f"{shown(value)} is closed, so this makes no link")


def object_end(statements, value, name, place, path):
    for old in OLD_ENDS:
        if text(value.get(old)):
            other = statements.by_id.get(value[old])
            told = written(other["recordId"]) if other and text(other.get("recordId")) else "the recordId of that statement"
            yield Warned("EndMakesNoLink", place, path, f"{old} is BODS 0.3's form: it is taken, and makes no link", told)
            return
    reason = text(value.get("reason")) or text(member(value.get("unspecified"), "reason"))
    more = f"; the reason, {shown(reason)}, is shown nowhere" if reason else ""
    yield Warned("EndMakesNoLink", place, path, f"{name} is an object, which makes no link: nobody is named by it{more}")


def not_stated(statements, declaration, value):
    """What is so where no statement has an end's record, and what may be meant."""
    where = "neither this file nor the register states" if statements.live else "no statement of this file states"
    says = f"{where} a record {shown(value)} in declaration {shown(declaration)}: until one does, this makes no link"
    other = statements.by_id.get(value)
    if other and text(other.get("recordId")):
        return f"{says}; it is the statementId of record {shown(other['recordId'])}", written(other["recordId"])
    declarations = [it for it in statements.declarations.get(value, []) if it]
    if declarations:
        told = f"the same declarationSubject in both ({shown(declarations[0])} has the record)"
        return f"{says}; links are made within a declaration", told
    meant = statements.plain.get((declaration, value.strip().lower()))
    return says, written(meant) if meant else None


# ---- interests


def interest_warnings(statements, it, interest, place, path):
    kind = interest.get("type")
    if kind in NAMED:
        yield from counting_warnings(statements, it, interest, place, path)
    elif kind in TRUST:
        says = f"a {kind} makes no holding: who is behind a trust by it isn't found"
        yield Warned("Trust", place, (*path, "type"), says)
    elif kind in NOMINEES:
        yield nominee(statements, it, kind, place, (*path, "type"))
    elif kind in OTHER:
        yield Warned("NotCounted", place, (*path, "type"), f"an interest of type {kind} makes no holding: nobody is named by it")
    else:
        yield from unknown_interest(statements, it, interest, place, path)
    for name, read in (("startDate", start_of), ("endDate", end_of)):
        if interest.get(name) is not None and read(interest[name]) is None:
            says = f"{name} {shown(interest[name])} names no day, month or year, so it says nothing"
            yield Warned("DateNotRead", place, (*path, name), says, '"YYYY-MM-DD", "YYYY-MM" or "YYYY"')


def unknown_interest(statements, it, interest, place, path):
    """An interest of a type that BODS doesn't have, and what comes of it once its type is written as it is meant."""
    kind = interest.get("type")
    meant = nearest(kind, [*NAMED, *TRUST, *NOMINEES, *OTHER])
    says = f"{shown(kind)} is no type of interest: it makes no holding, and its share isn't read"
    if kind is None:
        says = "the interest has no type: it makes no holding, and its share isn't read"
    yield Warned("UnknownWord", place, (*path, "type"), says, written(meant) if meant else " or ".join(map(written, NAMED)))
    if meant in NAMED:
        for fault in interest_faults({**interest, "type": meant}, place, path):
            name = fault.name + (f" in {fault.field}" if fault.field else "")
            yield Warned("ShareNotRead", place, fault.path, f"as an interest of type {meant} this is refused: {name}")
        yield from counting_warnings(statements, it, interest, place, path)


def counting_warnings(statements, it, interest, place, path):
    word = interest.get("directOrIndirect")
    if word == "indirect" and not has_components(statements, it):
        says = "an indirect interest makes no holding: nobody is named by it, but by the direct ones that it is made of"
        told = "a relationship for each step, and their recordIds as componentRecords of this one"
        yield Warned("Indirect", place, (*path, "directOrIndirect"), says, told)
    if word not in (None, "direct", "indirect", "unknown"):
        meant = nearest(word, ["direct", "indirect", "unknown"])
        says = f"{shown(word)} is read as unknown, so the interest counts as a direct one does"
        yield Warned("UnknownWord", place, (*path, "directOrIndirect"), says, written(meant or "direct"))
    if "interestLevel" in interest and word is None:
        says = "interestLevel isn't read, so the interest counts as a direct one does"
        yield Warned("UnknownWord", place, (*path, "interestLevel"), says, f'"directOrIndirect":{shown(interest["interestLevel"])}')
    party = text(it.get("declarationSubject")), text(it["recordDetails"].get("interestedParty"))
    if interest.get("beneficialOwnershipOrControl") is False and word != "indirect":
        if (statements.type_of(party) or ("",))[0] == "person":
            says = f"beneficialOwnershipOrControl isn't read: {statements.named(party)} is named as a holder all the same"
            yield Warned("NotBeneficial", place, (*path, "beneficialOwnershipOrControl"), says)


def has_components(statements, it):
    """Whether the relationship is made of others that are stated."""
    names, declaration = items(it["recordDetails"], "componentRecords"), text(it.get("declarationSubject"))
    return bool(names) and all(isinstance(name, str) and statements.type_of((declaration, name)) for name in names)


def nominee(statements, it, kind, place, path):
    """A nominee's or a nominator's interest, with who is named instead of whom."""
    declaration, details = text(it.get("declarationSubject")), it["recordDetails"]
    subject = declaration, text(details.get("subject"))
    others = statements.subjects.get(subject, [])
    wanted = "nominee" if kind == "nominator" else "nominator"
    keys = [(declaration, text(other["recordDetails"].get("interestedParty"))) for other in others if has_kind(other, wanted)]
    if kind == "nominator" and not keys:
        keys = [(declaration, text(other["recordDetails"].get("interestedParty"))) for other in others if other is not it]
    told = ", ".join(statements.named(key) for key in keys if key[1]) or f"whoever the file has as {wanted}"
    own = statements.named((declaration, text(details.get("interestedParty")) or "?"))
    if kind == "nominator":
        return Warned("Nominee", place, path, f"nominator {own} isn't found; named instead, where it holds, is {told}")
    return Warned("Nominee", place, path, f"nominee {own} is named where it holds shares or votes; {told} isn't, as nominator")


def has_kind(it, kind):
    return any(member(interest, "type") == kind for interest in items(it["recordDetails"], "interests"))


# ---- shares without votes


def counting(it):
    """The interests that count, each with its points; those with a faulty share are left out."""
    for interest in items(it["recordDetails"], "interests")[:100]:
        if member(interest, "type") in NAMED and interest.get("directOrIndirect") != "indirect":
            try:
                share = interest.get("share")
                points = frozenset(range(201)) if share is None else points_of(share)
            except (TypeError, AttributeError):
                continue
            if points and max(points) > 0:
                yield interest, points


def is_stake(found):
    votes = any(it["type"] == "votingRights" and min(points) > 100 for it, points in found)
    board = any(it["type"] == "appointmentOfBoard" and (it.get("share") is None or min(points) > 100) for it, points in found)
    return votes or board and any(it["type"] != "appointmentOfBoard" for it, _ in found)


def share_warnings(statements, it, place, path):
    """A holding by shares that may be a majority, above an entity that holds others, where no votes make it one."""
    found = list(counting(it))
    declaration, subject = text(it.get("declarationSubject")), text(it["recordDetails"].get("subject"))
    shares = any(interest["type"] == "shareholding" and max(points) > 100 for interest, points in found)
    is_above = (declaration, subject) in statements.parties
    if not shares or is_stake(found) or not is_above or statements.kind((declaration, subject)) not in LEGAL:
        return
    below = statements.parties[declaration, subject][0]["recordDetails"].get("subject")
    party = text(it["recordDetails"].get("interestedParty"))
    who = statements.named((declaration, party)) if party else "the holder"
    says = f"these shares give no majority of votes, so {who} isn't found behind {shown(below)}, which {shown(subject)} holds"
    told = '{"type":"votingRights","share":{..}} beside the shareholding, where the shares carry votes'
    yield Warned("SharesWithoutVotes", place, (*path, "interests"), says, told)


# ---- all

WARNINGS = {"entity": entity_warnings, "person": person_warnings, "relationship": relationship_warnings}


def warnings_of(value, live=None):
    """The warnings of a list of statements, in its order; `live` has what the register holds, where it was asked."""
    statements = Statements(value, live)
    for place, it in statements.all:
        kind = type_meant(it)
        if kind in WARNINGS:
            yield from WARNINGS[kind](statements, it, place, (place - 1, "recordDetails"))


def due_warnings(value, live, today):
    """Records whose last statement in the register is due later than its day."""
    for place, it in enumerate(value, 1):
        if not is_object(it) or day_of(it.get("statementDate")) is None:
            continue
        last = live.last.get((text(it.get("declarationSubject")), text(it.get("recordId"))))
        if last and last.due and last.due > today:
            says = f"the record's last statement is due on {last.due}: a filing that is due before is refused as DueBeforeRecord"
            yield Warned("DueNoEarlier", place, (place - 1, "recordId"), says, f"due={last.due}, or later, in the lodging")
