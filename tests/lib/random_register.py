"""Random inputs to a register: filings that mostly may follow one another, and asks for what is seen."""
import json

from lib.notation import file_of, token_of
from lib.register import Register

DAY = "2024-02-01"
AGENTS = ["alder", "birch", "cedar"]
DECLARATIONS = ["c1", "c2"]
ENTITIES = ["e1", "e2", "e3", "e4"]
PERSONS = ["p1", "p2", "p3"]
RECORDS = [("entity", record) for record in ENTITIES]
RECORDS += [("person", record) for record in PERSONS]
RECORDS += [("relationship", f"r{number}") for number in range(1, 9)]
# Records of which each is held by those of the next line, in a declaration of their own.
LAYERS = [["f1"], ["f2", "f3"], ["f4", "f5"], ["p1", "p2"]]
LAYERED = "c3"
NODES, LINKS = list(range(7)), list(range(7, 15))
IDENTIFIERS = [("X", "1"), ("X", "2"), ("Y", "1"), ("x", "1")]
DATES = ["2024-01-10", "2024-01-11", "2024-01-15", "2024-02-03"]
DUE = ["2024-02-01", "2024-02-02", "2024-02-05", "2024-02-10", "2024-03-01"]
ASKED_ON = ["2024-01-10", "2024-01-12", "2024-01-12", "2024-02-03"]
KINDS = ["registeredEntity"] * 6 + ["legalEntity"] * 3 + ["arrangement", "stateBody", None]
NAMES = ["Ann Moss", 'Ben "B" Birch', "李 娜", None, ""]
NUMBERS = [0, 1, 10, 50, 51, 60, 100]
ABOUT_A_HALF = [
    {"exact": 50},
    {"minimum": 50},
    {"minimum": 50, "exclusiveMinimum": True},
    {"exclusiveMinimum": 50},
    {"exclusiveMinimum": 50, "maximum": 75},
    {"minimum": 51},
    {"minimum": 50, "exclusiveMinimum": False},
]
# Days, months and years about those that are asked for, and texts that are none.
STARTS = ["2024-01-12", "2024-01-13T08:00:00Z", "2024-02", "2024-02-03", "2023", "2025", "2024-1", 2024]
ENDS = ["2024-01-10", "2024-01-12", "2024-01", "2024-02-01T23:00:00Z", "2024-02", "2023", "2024", "2024-02-30", 2024]
TYPES = ["votingRights"] * 7 + ["shareholding"] * 3 + ["appointmentOfBoard"] * 4 + ["trustee"]
# What a spoiled statement says of one of its members.
SPOILED = [
    ("statementId", 7),
    ("statementDate", "2023-02-29"),
    ("recordType", "ship"),
    ("recordStatus", "open"),
    ("recordId", ""),
    ("declarationSubject", None),
    ("recordDetails", []),
]


def share(rng):
    """A share by one number, by bounds about a half, or by any bounds; a few have no points."""
    form = rng.random()
    if form < 0.4:
        return {"exact": rng.choice(NUMBERS)}
    if form < 0.85:
        return dict(rng.choice(ABOUT_A_HALF))
    if form < 0.855:
        return {rng.choice(["exact", "maximum", "exclusiveMinimum"]): rng.choice([25.0, 101, "25", -1])}
    low, high = sorted([rng.choice(NUMBERS), rng.choice(NUMBERS)])
    bounds = {}
    if rng.random() < 0.8:
        bounds[rng.choice(["minimum", "minimum", "exclusiveMinimum"])] = low
    if rng.random() < 0.6:
        bounds[rng.choice(["maximum", "maximum", "exclusiveMaximum"])] = high
    for name in ("exclusiveMinimum", "exclusiveMaximum"):
        if name not in bounds and rng.random() < 0.2:
            bounds[name] = rng.random() < 0.6
    return bounds


def interest(rng):
    told = {"type": rng.choice(TYPES)}
    if rng.random() < 0.8:
        told["share"] = share(rng)
    if rng.random() < 0.15:
        told["directOrIndirect"] = rng.choice(["direct", "indirect", "unknown"])
    return told | dates(rng)


def dates(rng):
    """The dates of an interest, which mostly has none."""
    told = {}
    if rng.random() < 0.15:
        told["startDate"] = rng.choice(STARTS)
    if rng.random() < 0.25:
        told["endDate"] = rng.choice(ENDS)
    return told


def entity_details(rng):
    told = {"name": rng.choice(NAMES)}
    kind = rng.choice(KINDS)
    if kind:
        told["entityType"] = {"type": kind}
    if rng.random() < 0.5:
        chosen = rng.sample(IDENTIFIERS, rng.choice([1, 1, 2]))
        told["identifiers"] = [{"scheme": scheme, "id": name} for scheme, name in chosen]
    return told


def relationship_details(rng):
    interests = [interest(rng) for _ in range(rng.choice([1, 1, 2, 2, 3]))]
    if rng.random() < 0.3:
        majority = {"type": "votingRights", "share": {"exact": rng.choice([51, 60, 100])}}
        interests.insert(0, majority | dates(rng))
    told = {
        "subject": rng.choice(ENTITIES),
        "interestedParty": rng.choice(ENTITIES * 3 + PERSONS * 2),
        "interests": interests,
    }
    if rng.random() < 0.05:
        told[rng.choice(["subject", "interestedParty"])] = {"reason": "unknown"}
    return told


def details(rng, kind):
    if kind == "entity":
        return entity_details(rng)
    if kind == "person":
        return {"personType": "knownPerson", "names": [{"fullName": rng.choice(NAMES)}]}
    return relationship_details(rng)


class Maker:
    """Makes inputs one after the other, and knows the register that they lead to."""

    def __init__(self, rng):
        self.rng = rng
        self.register = Register(DAY)
        self.inputs = []
        self.agents = AGENTS[: rng.choice([2, 2, 3])]
        self.counts = dict.fromkeys(self.agents, 0)

    def ask(self, *wish):
        self.inputs.append(wish)
        self.register.answer(*wish)

    def due(self):
        return self.rng.choice([due for due in DUE if due >= self.register.day])

    def series(self, agent, declaration, record):
        """The record's live statements, each with its due day."""
        live = self.register.live(agent)
        return [(it, due) for it, due in live if (it.declaration, it.record) == (declaration, record)]

    def last(self, agent, declaration, record):
        series = self.series(agent, declaration, record)
        return series[-1][0] if series else None

    def may_follow(self, agent, declaration, record, due):
        series = self.series(agent, declaration, record)
        return not series or series[-1][0].status != "closed" and series[-1][1] <= due

    def statement(self, agent, declaration, due, kind, record):
        """A statement of the record that mostly may follow, as JSON."""
        rng, last = self.rng, self.last(agent, declaration, record)
        self.counts[agent] += 1
        first = last.day if last and rng.random() < 0.97 else DATES[0]
        dates = [date for date in DATES if date >= first]
        told = {
            "statementId": f"s{self.counts[agent]}" if rng.random() < 0.995 else "s1",
            "statementDate": dates[0] if rng.random() < 0.6 else rng.choice(dates),
            "declarationSubject": declaration,
            "recordId": record,
            "recordType": kind,
            "recordDetails": details(rng, kind),
        }
        if rng.random() < 0.12:
            told["recordStatus"] = rng.choice(["updated", "updated", "closed"] if last else ["new"])
        return told

    def lodge(self, agent, declaration, due, chosen):
        """Lodges a statement of each of the chosen records, a few of them twice."""
        rng = self.rng
        statements = [self.statement(agent, declaration, due, *RECORDS[at]) for at in chosen]
        if rng.random() < 0.2:
            statements.append(self.statement(agent, declaration, due, *RECORDS[rng.choice(chosen)]))
        if rng.random() < 0.06:
            rng.choice(statements).update([rng.choice(SPOILED)])
        data = json.dumps(statements, ensure_ascii=False).encode()
        self.ask(agent, "lodge", f"k{self.counts[agent]}", due, data)

    def begin(self, agent, declaration):
        """Companies and persons, mostly published at once, and then who holds whom."""
        due = self.register.day if self.rng.random() < 0.8 else self.due()
        self.lodge(agent, declaration, due, self.rng.sample(NODES, len(NODES) - self.rng.choice([0, 0, 1])))
        self.lodge(agent, declaration, self.due_mostly_now(), self.rng.sample(LINKS, 7))

    def due_mostly_now(self):
        return self.register.day if self.rng.random() < 0.5 else self.due()

    def change(self, agent):
        """A few records more, most of which may be stated again."""
        declaration, due = self.rng.choice(["c1", "c1", "c2"]), self.due_mostly_now()
        chosen = self.rng.sample(list(range(len(RECORDS))), self.rng.randint(2, 5))
        free = [at for at in chosen if self.may_follow(agent, declaration, RECORDS[at][1], due)]
        self.lodge(agent, declaration, due, free or chosen)

    def layer(self, agent):
        """Records with many chains of one length, between which the order of their links decides."""
        rng = self.rng
        pairs = [(low, high) for lows, highs in zip(LAYERS, LAYERS[1:]) for low in lows for high in highs]
        pairs = [pair for pair in pairs if rng.random() < 0.9]
        lines = [f"E t-{it} {it}{rng.choice(['', '', ' #T/1', ' #T/2'])}" for lows in LAYERS[:-1] for it in lows]
        lines += [f"P t-{it} {it}" for it in LAYERS[-1]]
        names = rng.sample(range(10, 30), len(pairs))
        lines += [f"R t{name} r{name} {low}<-{high} V60" for name, (low, high) in zip(names, pairs)]
        self.ask(agent, "lodge", "layers", self.register.day, file_of(f"{'; '.join(lines)} in {LAYERED}"))

    def repeat(self, agent):
        """An earlier lodging again, or another one under its key."""
        lodged = [wish for wish in self.inputs if wish[:2] == (agent, "lodge")]
        if lodged:
            _, _, key, due, data = self.rng.choice(lodged)
            self.ask(agent, "lodge", key, self.rng.choice([due, due, "2024-03-01"]), data)

    def withdraw(self, agent):
        drafts = [it.key for it in self.register.filings[agent] if self.register.state(it) == "draft"]
        keys = [it.key for it in self.register.filings[agent]]
        chosen = drafts[:1] if self.rng.random() < 0.5 else drafts + keys
        self.ask(agent, "withdraw", self.rng.choice(chosen or ["k0"]))

    def step(self):
        agent, chance = self.rng.choice(self.agents), self.rng.random()
        if chance < 0.68:
            self.change(agent)
        elif chance < 0.82:
            self.withdraw(agent)
        elif chance < 0.9:
            self.repeat(agent)
        elif chance < 0.94:
            self.ask("registrar", "day", self.rng.choice(DUE[1:4]))
        elif chance < 0.96:
            self.renew(agent)
        else:
            self.look(agent, self.rng.choice(self.agents))

    def renew(self, agent):
        """The agent has another token for a while, and then its own again."""
        other = f"{agent}-2"
        self.ask("registrar", "renew", self.rng.choice([agent, "dogwood"]), token_of(other))
        self.ask(agent, "filings")
        self.ask(other, "filings")
        self.ask("registrar", "renew", agent, token_of(self.rng.choice([*self.agents, "registrar"])))
        self.ask("registrar", "renew", agent, token_of(agent))
        self.ask("registrar", "register")

    def look(self, viewer, agent):
        """What a viewer is told of the declarations of an agent."""
        for declaration in DECLARATIONS:
            for record in ENTITIES:
                self.ask(viewer, "chains", agent, declaration, record)
                self.ask(viewer, "chains", agent, declaration, record, self.rng.choice(ASKED_ON))
            self.ask(viewer, "snapshot", agent, declaration, self.rng.choice([*ASKED_ON, "2024-02-20"]))

    def end(self):
        self.ask("registrar", "register")
        for viewer in self.agents:
            for agent in self.agents:
                self.look(viewer, agent)
            self.ask(viewer, "chains", viewer, "c1", "p1")
            self.ask(viewer, "published")
            self.ask(viewer, "filings")
        for viewer in self.agents:
            self.ask_why(viewer)
        for viewer in self.agents:
            self.find(viewer)

    def ask_why(self, viewer):
        """Why each entity's persons are named to a viewer, on the register's day and on another one."""
        for agent in self.agents:
            for declaration in DECLARATIONS:
                for record in ENTITIES:
                    self.ask(viewer, "evidence", agent, declaration, record)
                    self.ask(viewer, "evidence", agent, declaration, record, self.rng.choice(ASKED_ON))
            for record in ["f1", "f2"]:
                self.ask(viewer, "evidence", agent, LAYERED, record)
        self.ask(viewer, "evidence", viewer, "c1", "p1")

    def find(self, viewer):
        """Which entities a viewer finds by each identifier, on the register's day and on another one."""
        for scheme, number in [*IDENTIFIERS, ("T", "1")]:
            self.ask(viewer, "entities", scheme, number)
            self.ask(viewer, "entities", scheme, number, self.rng.choice(ASKED_ON))


def inputs_of(rng):
    """The inputs of a case."""
    maker = Maker(rng)
    for agent in maker.agents:
        maker.ask("registrar", "enrol", agent, token_of(agent))
    for agent in maker.agents:
        maker.begin(agent, "c1")
        if rng.random() < 0.5:
            maker.begin(agent, "c2")
    for _ in range(rng.randint(4, 12)):
        maker.step()
    for agent in maker.agents:
        maker.layer(agent)
    maker.end()
    return maker.inputs


# ---- files with something wrong

WRONG = [None, 7, -1, 0, 1.5, 101, 2**64, True, False, "", "x", "e1", "new", "x" * 256, [], {}, [7], "2023-02-29"]


def places_in(value):
    """Each list or object of a value with each of its places."""
    items = value.items() if isinstance(value, dict) else enumerate(value) if isinstance(value, list) else []
    for place, part in list(items):
        yield value, place
        yield from places_in(part)


def spoil(rng, statements):
    """Puts something wrong at one place, or takes away what stands there."""
    holder, place = rng.choice(list(places_in(statements)))
    if rng.random() < 0.2:
        del holder[place]
    else:
        holder[place] = json.loads(json.dumps(rng.choice(WRONG)))


def spoiled_inputs(rng, count):
    """Lodgings of files of which most have something wrong, and what comes of them."""
    maker = Maker(rng)
    for agent in maker.agents:
        maker.ask("registrar", "enrol", agent, token_of(agent))
    for number in range(count):
        agent, due = rng.choice(maker.agents), rng.choice(DUE)
        chosen = rng.sample(NODES, 2) + rng.sample(LINKS, 2)
        declaration = f"c{number}"
        statements = [maker.statement(agent, declaration, due, *RECORDS[at]) for at in chosen]
        for _ in range(rng.choice([0, 1, 1, 2, 3])):
            if statements:
                spoil(rng, statements)
        maker.ask(agent, "lodge", f"f{number}", due, json.dumps(statements).encode())
        if number % 10 == 0:
            maker.ask(agent, "snapshot", agent, declaration)
    for viewer in maker.agents:
        maker.ask(viewer, "filings")
        maker.ask(viewer, "published")
    return maker.inputs
