"""A second answer to each request: the register as its definitions say it, with no key, mark or worklist.

Who is joined to an entity is found by plain rounds over all links: those that may be the first of a chain
of one link, of two, and so on, until a round has none that is new.
"""
import json
from dataclasses import dataclass

from lib.evidence import Evidence, in_bytes, named
from lib.notation import token_of
from lib.reading import Refused, read
from lib.replies import reply

STATUSES = {
    401: ["NoAgent"],
    403: ["NotRegistrar", "NotAgent"],
    404: ["NoSuchFiling", "NoEntity", "NoSuchAgent"],
    409: ["KeyReused", "FilingsFull", "Published", "HasSuccessor", "DayBack", "NameTaken", "TokenTaken"],
}
STATUS_OF = {name: status for status, names in STATUSES.items() for name in names}
LEGAL_KINDS = ["registeredEntity", "legalEntity"]
READS = ["chains", "evidence", "entities", "snapshot", "filings", "file", "published", "register"]
REGISTRARS = ["day", "enrol", "renew", "register"]
# The methods that aren't named as what is wished.
CALLS = {"day": "set_day", "filings": "list_filings", "register": "overview"}


@dataclass
class Filing:
    number: int
    key: str
    due: str
    data: bytes
    statements: list
    withdrawn: bool = False


@dataclass(frozen=True)
class Link:
    """A relationship by its record's identifier, between open records, each told by its agent, declaration and identifier."""

    record: str
    subject: tuple
    party: tuple
    stake: bool
    holding: bool


def told(value):
    return json.dumps(value, ensure_ascii=False, separators=(",", ":"), sort_keys=True).encode()


def refused(fault):
    parts = {"refusal": fault.name, "field": fault.field, "place": fault.place}
    body = told({name: value for name, value in parts.items() if value is not None})
    return reply(STATUS_OF.get(fault.name, 422), body)


class Register(Evidence):
    """A register on a day, with its agents and their filings in the order in which they were accepted."""

    def __init__(self, day):
        self.day = day
        self.tokens = {token_of("registrar"): "registrar"}
        self.filings = {}
        self.graphs = {}

    # ---- who asks for what

    def answer(self, caller, wish, *words):
        """The reply to what a caller wishes, as bytes."""
        return self.answer_to(token_of(caller), wish, words)

    def answer_to(self, token, wish, words):
        """The same of whoever has the token."""
        name = self.tokens.get(token)
        try:
            if name is None:
                raise Refused("NoAgent")
            if (name == "registrar") != (wish in REGISTRARS):
                raise Refused("NotAgent" if name == "registrar" else "NotRegistrar")
            if wish not in READS:
                self.graphs = {}
            call = getattr(self, CALLS.get(wish, wish))
            return call(*words) if name == "registrar" else call(name, *words)
        except Refused as fault:
            return refused(fault)

    def set_day(self, day):
        if day < self.day:
            raise Refused("DayBack")
        self.day = day
        return reply(200, told({"day": day}))

    def enrol(self, name, token):
        if name in self.filings:
            raise Refused("NameTaken")
        if token in self.tokens:
            raise Refused("TokenTaken")
        self.tokens[token], self.filings[name] = name, []
        return reply(201, told({"agent": name}))

    def renew(self, name, token):
        if name not in self.filings:
            raise Refused("NoSuchAgent")
        if self.tokens.get(token, name) != name:
            raise Refused("TokenTaken")
        self.tokens = {kept: owner for kept, owner in self.tokens.items() if owner != name} | {token: name}
        return reply(200, told({"agent": name}))

    def overview(self):
        published = {name: [self.state(it) for it in filings].count("published") for name, filings in self.filings.items()}
        agents = [{"agent": name, "published": published[name]} for name in sorted(published)]
        return reply(200, told({"agents": agents, "day": self.day}))

    # ---- filings

    def state(self, filing):
        if filing.withdrawn:
            return "withdrawn"
        return "published" if filing.due <= self.day else "draft"

    def line(self, filing, status=200):
        body = {"due": filing.due, "filing": filing.number, "state": self.state(filing)}
        return reply(status, told(body))

    def under(self, name, key):
        return next((filing for filing in self.filings[name] if filing.key == key), None)

    def live(self, name):
        """The agent's live statements, each with its filing's due day."""
        return [(it, filing.due) for filing in self.filings[name] for it in filing.statements]

    def lodge(self, name, key, due, data):
        kept = self.under(name, key)
        if kept:
            if (kept.due, kept.data) != (due, data):
                raise Refused("KeyReused")
            return self.line(kept)
        number = len(self.filings[name]) + 1
        if number > 999:
            raise Refused("FilingsFull")
        if due < self.day:
            raise Refused("DuePast")
        statements = settled(self.live(name), read(data), due)
        filing = Filing(number, key, due, data, statements)
        self.filings[name].append(filing)
        return self.line(filing, 201)

    def withdraw(self, name, key):
        filing = self.under(name, key)
        if not filing:
            raise Refused("NoSuchFiling")
        if self.state(filing) == "published":
            raise Refused("Published")
        records = {record_of(it) for it in filing.statements}
        later = self.filings[name][filing.number :]
        if any(record_of(it) in records for other in later for it in other.statements):
            raise Refused("HasSuccessor")
        filing.withdrawn, filing.statements = True, []
        return self.line(filing)

    def list_filings(self, name):
        lines = [
            {"due": it.due, "filing": it.number, "key": it.key, "state": self.state(it)}
            for it in self.filings[name]
        ]
        return reply(200, told(lines))

    def file(self, name, key):
        filing = self.under(name, key)
        if not filing:
            raise Refused("NoSuchFiling")
        return reply(200, filing.data)

    # ---- what is seen

    def is_seen(self, filing, agent, viewer):
        return not filing.withdrawn and (agent == viewer or filing.due <= self.day)

    def published(self, _name):
        outward = []
        for agent in sorted(self.filings):
            for filing in self.filings[agent]:
                if self.state(filing) == "published":
                    lines = [line_of(it) for it in filing.statements]
                    outward.append({"agent": agent, "due": filing.due, "statements": lines})
        return reply(200, told(outward))

    def visible(self, viewer):
        return [
            (agent, it)
            for agent, filings in self.filings.items()
            for filing in filings
            if self.is_seen(filing, agent, viewer)
            for it in filing.statements
        ]

    def latest(self, rows, date):
        """The last statement of each record that is dated at or before the date, where it is open."""
        last = {}
        for agent, it in rows:
            if it.day <= date:
                last[agent, it.declaration, it.record] = it
        return {node: it for node, it in last.items() if it.status != "closed"}

    def shown(self, it):
        return {**line_of(it), "details": it.details}

    def snapshot(self, viewer, agent, declaration, date=None):
        date = date or self.day
        shown = self.latest(self.visible(viewer), date)
        records = [
            self.shown(it)
            for (owner, subject, _), it in sorted(shown.items(), key=lambda pair: pair[0][2].encode())
            if (owner, subject) == (agent, declaration)
        ]
        for record in records:
            del record["declaration"]
        return reply(200, told({"date": date, "records": records}))

    # ---- stakes and holdings (UK Companies Act 2006, Schedule 1A, paragraph 18)

    def counts(self, interest, date):
        return interest.kind != "other" and interest.directness != "indirect" and self.is_within(interest, date)

    def is_within(self, interest, date):
        """Whether the date lies within the interest's dates; days are texts of ten letters, in order."""
        return (interest.starts or date) <= date <= (interest.ends or date)

    def is_majority(self, points):
        return all(half > 100 for half in points)

    def is_holding(self, interests, date):
        return any(max(it.points) > 0 for it in interests if self.counts(it, date))

    def is_stake(self, interests, date):
        counting = [it for it in interests if self.counts(it, date)]
        if any(it.kind == "votingRights" and self.is_majority(it.points) for it in counting):
            return True
        board = [it for it in counting if it.kind == "appointmentOfBoard"]
        member = [it for it in counting if it.kind != "appointmentOfBoard"]
        appoints = any(it.share is None or self.is_majority(it.points) for it in board)
        return appoints and any(max(it.points) > 0 for it in member)

    # ---- nodes, links, and which nodes are the same

    def graph(self, viewer, date):
        """The open entities and persons, the links between them, and a name for those that are the same."""
        if (viewer, date) not in self.graphs:
            rows = self.latest(self.visible(viewer), date)
            nodes = {node: it for node, it in rows.items() if it.type != "relationship"}
            links = [self.link(node, it, nodes, date) for node, it in rows.items() if it.type == "relationship"]
            links = [link for link in links if link]
            self.graphs[viewer, date] = nodes, links, self.classes(nodes)
        return self.graphs[viewer, date]

    def link(self, node, it, nodes, date):
        subject = self.end_of(node, it.details["subject"], nodes)
        party = self.end_of(node, it.details["interestedParty"], nodes)
        if not subject or not party or nodes[subject].type != "entity":
            return None
        return Link(node[2], subject, party, self.is_stake(it.interests, date), self.is_holding(it.interests, date))

    def end_of(self, node, record, nodes):
        end = (node[0], node[1], record)
        return end if end in nodes else None

    def is_alias(self, one, other, nodes):
        if nodes[one].type != "entity" or nodes[other].type != "entity" or one == other:
            return False
        if one[0] == other[0] and one[2] == other[2]:
            return True
        return any(it in nodes[other].details["identifiers"] for it in nodes[one].details["identifiers"])

    def classes(self, nodes):
        names = {node: place for place, node in enumerate(nodes)}
        aliases = [(one, other) for one in nodes for other in nodes if self.is_alias(one, other, nodes)]
        changed = True
        while changed:
            changed = False
            for one, other in aliases:
                if names[one] > names[other]:
                    names[one], changed = names[other], True
        return names

    # ---- chains

    def may_be_passed(self, node, nodes):
        return nodes[node].type == "entity" and nodes[node].details["kind"] in LEGAL_KINDS

    def is_last(self, link, target, same):
        return link.holding and same[link.subject] == same[target]

    def leads_to(self, link, below, nodes, same):
        """Whether the link may stand before a link of a chain."""
        return (
            link.stake
            and same[link.subject] == same[below.party]
            and self.may_be_passed(below.party, nodes)
        )

    def joined(self, nodes, links, same, target):
        """The persons with a chain to the target, each with the least number of its links."""
        first = [link for link in links if self.is_last(link, target, same)]
        met, persons, count = [], {}, 1
        while any(link not in met for link in first):
            met += [link for link in first if link not in met]
            for link in first:
                if nodes[link.party].type == "person":
                    persons.setdefault(link.party, count)
            first = [link for link in links if any(self.leads_to(link, below, nodes, same) for below in first)]
            count += 1
        return persons

    def graph_about(self, viewer, target, date):
        """What a viewer sees of an entity, which has to be open."""
        nodes, links, same = self.graph(viewer, date)
        if target not in nodes or nodes[target].type != "entity":
            raise Refused("NoEntity")
        return nodes, links, same

    def person_line(self, node, links, nodes):
        """What both reports tell of a person."""
        return {**named(node), "links": links, "name": nodes[node].details["name"]}

    def chains(self, viewer, agent, declaration, record, date=None):
        date = date or self.day
        target = (agent, declaration, record)
        nodes, links, same = self.graph_about(viewer, target, date)
        persons = self.joined(nodes, links, same, target)
        lines = [self.person_line(node, persons[node], nodes) for node in sorted(persons, key=in_bytes)]
        return reply(200, told({**named(target), "date": date, "persons": lines}))

    def evidence(self, viewer, agent, declaration, record, date=None):
        date = date or self.day
        target = (agent, declaration, record)
        graph = self.graph_about(viewer, target, date)
        return reply(200, told(self.evidence_told(viewer, date, target, graph)))

    # ---- entities by an identifier

    def entities_seen(self, viewer):
        return self.visible(viewer)

    def identified(self, rows, identifier):
        """The open entities that have the identifier, each by its agent, declaration and record."""
        found = [node for node, it in rows.items() if it.type == "entity" and identifier in it.details["identifiers"]]
        return sorted(found, key=in_bytes)

    def entities(self, viewer, scheme, id, date=None):
        date = date or self.day
        rows, identifier = self.latest(self.entities_seen(viewer), date), {"id": id, "scheme": scheme}
        records = [self.record_line(node, rows) for node in self.identified(rows, identifier)]
        return reply(200, told({**identifier, "date": date, "entities": records}))


# ---- records


def record_of(it):
    return it.declaration, it.record


def line_of(it):
    return {
        "date": it.day,
        "declaration": it.declaration,
        "id": it.id,
        "record": it.record,
        "status": it.status,
        "type": it.type,
    }


def settled(live, statements, due):
    """The statements with their statuses, each after the live ones and the file's earlier ones."""
    live = list(live)
    for place, it in enumerate(statements, 1):
        if any(other.id == it.id for other, _ in live):
            raise Refused("StatementTwice", None, place)
        series = [(other, day) for other, day in live if record_of(other) == record_of(it)]
        name = refusal_of(series[-1] if series else None, it, due)
        if name:
            raise Refused(name, None, place)
        it.status = it.status or ("updated" if series else "new")
        live.append((it, due))
    return statements


def refusal_of(last, it, due):
    """Why a statement may not follow the last live one of its record, if it may not."""
    if not last:
        return "RecordUnknown" if it.status in ("updated", "closed") else None
    other, other_due = last
    tests = [
        ("TypeChanged", other.type != it.type),
        ("RecordExists", it.status == "new"),
        ("RecordClosed", other.status == "closed"),
        ("DateBack", it.day < other.day),
        ("DueBeforeRecord", due < other_due),
    ]
    return next((name for name, holds in tests if holds), None)
