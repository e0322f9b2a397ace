"""What users ask of one register: two agents, each with companies of its own, in an order by chance from a fixed seed."""
from random import Random

from lib.requests import AGENTS, DAY, entity, held, lodging, person, request

AGENTS_ASKING = AGENTS[:2]
COMPANIES = 200
LATER = "2024-03-01"
# Of a hundred requests.
SHARES = {
    "lodging": 35,
    "chains": 20,
    "snapshot": 10,
    "file": 10,
    "list": 5,
    "published": 2,
    "repeat": 6,
    "withdrawal": 4,
    "refusal": 8,
}
# How many of a hundred lodgings are drafts, which are withdrawn later or stay.
DRAFTS = 20


def declared(company, version):
    """A file of a company, in a declaration of its own: the company, who holds it, and by what. Each fourth one is held by
    a person; another one by the company before it, which is stated here under its identifier."""
    declaration, tail = f"d{company}", f"{company}-{version}"
    party = f"h{company}"
    holder = entity(f"sh{tail}", party, f"{company - 1:08}", declaration)
    if company % 4 == 0:
        party = f"p{company}"
        holder = person(f"sp{tail}", party, declaration)
    items = [
        entity(f"se{tail}", f"e{company}", f"{company:08}", declaration),
        holder,
        held(f"sr{tail}", f"r{company}", f"e{company}", party, declaration),
    ]
    return "[" + ",".join(items) + "]"


class Users:
    """The requests so far, and what can be asked behind them."""

    def __init__(self, seed):
        self.chance = Random(seed)
        self.versions, self.lodged, self.drafts, self.asked = {}, [], [], []

    def is_possible(self, kind):
        if kind == "withdrawal":
            return bool(self.drafts)
        return kind in ("lodging", "list", "published") or bool(self.lodged)

    def agent(self):
        return self.chance.choice(AGENTS_ASKING)

    def key(self):
        return f"k{len(self.asked)}"

    def lodging(self):
        is_draft = self.chance.randrange(100) < DRAFTS
        # A draft is of a company that nothing else is lodged of, so that it may be withdrawn.
        company = 1_000 + len(self.asked) if is_draft else self.chance.randrange(COMPANIES)
        version = self.versions[company] = self.versions.get(company, 0) + 1
        agent, key = AGENTS_ASKING[company % 2], self.key()
        asked = lodging(agent, key, LATER if is_draft else DAY, declared(company, version))
        if is_draft:
            self.drafts.append((agent, key))
        else:
            self.lodged.append((agent, key, company, asked))
        return asked

    def chains(self):
        agent, _, company, _ = self.chance.choice(self.lodged)
        return request(self.agent(), "GET", f"/chains?agent={agent}&declaration=d{company}&record=e{company}")

    def snapshot(self):
        agent, _, company, _ = self.chance.choice(self.lodged)
        return request(self.agent(), "GET", f"/snapshot?agent={agent}&declaration=d{company}")

    def file(self):
        agent, key, _, _ = self.chance.choice(self.lodged)
        return request(agent, "GET", f"/filings/{key}/file")

    def list(self):
        return request(self.agent(), "GET", "/filings")

    def published(self):
        return request(self.agent(), "GET", "/published")

    def repeat(self):
        return self.chance.choice(self.lodged)[3]

    def withdrawal(self):
        agent, key = self.drafts.pop(self.chance.randrange(len(self.drafts)))
        return request(agent, "DELETE", f"/filings/{key}")

    def refusal(self):
        agent, key, company, asked = self.chance.choice(self.lodged)
        stated = declared(company, 1)
        return self.chance.choice([
            lodging(agent, self.key(), DAY, "[" * 100),
            lodging(agent, self.key(), "2024-01-31", stated),
            lodging(agent, self.key(), DAY, stated),
            lodging(agent, key, LATER, stated),
            request(agent, "GET", "/filings/none/file"),
            request(agent, "GET", f"/chains?agent={agent}&declaration=d{company}&record=none"),
            request("nobody", "GET", "/filings"),
            request(agent, "GET", "/filings").replace("Bearer", "Basic"),
        ])


def users_mix(count, seed=1):
    """So many requests, of each kind its share."""
    users = Users(seed)
    kinds = [kind for kind, share in SHARES.items() for _ in range(count * share // 100)]
    users.chance.shuffle(kinds)
    for at in range(len(kinds)):
        if not users.is_possible(kinds[at]):
            other = kinds.index("lodging", at)
            kinds[at], kinds[other] = kinds[other], kinds[at]
        users.asked.append(getattr(users, kinds[at])())
    return users.asked
