"""Second answers with a fault each, as one could be planted in the program: each has to be found."""
from lib.evidence import chain_order, first_lists, in_bytes, link_order, record_first, relationship
from lib.reading import Refused
from lib.register import Register, record_of


class Planted(Register):
    """A register with a fault."""

    # Whether it shows an agent what nobody else may see.
    breaks_isolation = False


# ---- stakes and holdings


class HalfCounts(Planted):
    """Half counts as a majority."""

    def is_majority(self, points):
        return all(half >= 100 for half in points)


class OpenHalfIsNone(Planted):
    """More than half is no majority where it is less than 51."""

    def is_majority(self, points):
        return all(half >= 102 for half in points)


class IndirectCounts(Planted):
    """An indirect interest counts."""

    def counts(self, interest, date):
        return interest.kind != "other" and self.is_within(interest, date)


class EndedCounts(Planted):
    """An interest that has ended still counts."""

    def is_within(self, interest, date):
        return (interest.starts or date) <= date


class UnbegunCounts(Planted):
    """An interest that has not begun counts."""

    def is_within(self, interest, date):
        return date <= (interest.ends or date)


class EndIsLeftOut(Planted):
    """An interest doesn't count on its last day."""

    def is_within(self, interest, date):
        return super().is_within(interest, date) and date != interest.ends


class CountsToday(Planted):
    """Whether an interest has ended is asked of the register's day, whatever the date."""

    def is_within(self, interest, date):
        return super().is_within(interest, self.day)


class SharesAreVotes(Planted):
    """A majority of the shares is a stake."""

    def is_stake(self, interests, date):
        shares = [it for it in interests if self.counts(it, date) and it.kind == "shareholding"]
        return super().is_stake(interests, date) or any(self.is_majority(it.points) for it in shares)


class BoardAloneIsStake(Planted):
    """A right to appoint the board needs no share beside it."""

    def is_stake(self, interests, date):
        board = [it for it in interests if self.counts(it, date) and it.kind == "appointmentOfBoard"]
        appoints = any(it.share is None or self.is_majority(it.points) for it in board)
        return super().is_stake(interests, date) or appoints


class BoardNeedsItsShare(Planted):
    """A right to appoint the board with no share is no majority of the board."""

    def is_stake(self, interests, date):
        kept = [it for it in interests if it.kind != "appointmentOfBoard" or it.share is not None]
        return super().is_stake(kept, date)


# ---- chains


class LastMustBeStake(Planted):
    """The last link has to be a stake."""

    def is_last(self, link, target, same):
        return link.stake and same[link.subject] == same[target]


class MinorityIsFollowed(Planted):
    """A holding into a company in the middle is followed."""

    def leads_to(self, link, below, nodes, same):
        passed = self.may_be_passed(below.party, nodes)
        return link.holding and same[link.subject] == same[below.party] and passed


class TargetIsMiddle(Planted):
    """A target that is also passed is walked as passed alone."""

    def joined(self, nodes, links, same, target):
        parties = [link.party for link in links if self.may_be_passed(link.party, nodes)]
        if any(same[party] == same[target] for party in parties):
            links = [link for link in links if link.stake or same[link.subject] != same[target]]
        return super().joined(nodes, links, same, target)


class ArrangementIsPassed(Planted):
    """An entity of any kind stands in the middle of a chain."""

    def may_be_passed(self, node, nodes):
        return nodes[node].type == "entity"


class RegisteredAlone(Planted):
    """Nothing but a registered entity stands in the middle of a chain."""

    def may_be_passed(self, node, nodes):
        return nodes[node].type == "entity" and nodes[node].details["kind"] == "registeredEntity"


class NobodyIsNamed(Planted):
    """No report names anybody."""

    def joined(self, nodes, links, same, target):
        return {}


class EverybodyIsNamed(Planted):
    """Each report names every person that is seen."""

    def joined(self, nodes, links, same, target):
        persons = super().joined(nodes, links, same, target)
        return {node: persons.get(node, 1) for node, it in nodes.items() if it.type == "person"}


class OneLinkAlone(Planted):
    """Nobody is named behind another company."""

    def leads_to(self, link, below, nodes, same):
        return False


class FirstFound(Planted):
    """A person has the links of the chain that is found first."""

    def joined(self, nodes, links, same, target):
        persons, met = {}, []

        def follow(link, count):
            met.append(link)
            if nodes[link.party].type == "person":
                persons.setdefault(link.party, count)
            for other in links:
                if other not in met and self.leads_to(other, link, nodes, same):
                    follow(other, count + 1)

        for link in links:
            if link not in met and self.is_last(link, target, same):
                follow(link, 1)
        return persons


class AliasIsCounted(Planted):
    """A step between two entities that are the same counts as a link."""

    def joined(self, nodes, links, same, target):
        least = {}
        for _ in range(2 * len(links)):
            for place, link in enumerate(links):
                counts = [least[place]] if place in least else []
                if self.is_last(link, target, same):
                    counts.append(1 + (link.subject != target))
                for other, count in least.items():
                    if self.leads_to(link, links[other], nodes, same):
                        counts.append(count + 1 + (link.subject != links[other].party))
                if counts:
                    least[place] = min(counts)
        persons = {}
        for place, count in sorted(least.items(), key=lambda pair: pair[1]):
            if nodes[links[place].party].type == "person":
                persons.setdefault(links[place].party, count)
        return persons


# ---- nodes, and which are the same


class TargetsAliasesAlone(Planted):
    """Aliases of the target alone are looked for."""

    def leads_to(self, link, below, nodes, same):
        return link.subject == below.party and super().leads_to(link, below, nodes, same)


class NoAliasOfTarget(Planted):
    """Aliases of the target are not looked for."""

    def is_last(self, link, target, same):
        return link.subject == target and super().is_last(link, target, same)


class SchemeIsIgnored(Planted):
    """Identifiers are the same whatever their scheme."""

    def is_alias(self, one, other, nodes):
        if one == other or {nodes[one].type, nodes[other].type} != {"entity"}:
            return False
        names = [{it["id"] for it in nodes[node].details["identifiers"]} for node in (one, other)]
        return super().is_alias(one, other, nodes) or bool(names[0] & names[1])


class CaseIsIgnored(Planted):
    """Schemes are the same whatever the case of their letters."""

    def is_alias(self, one, other, nodes):
        if one == other or {nodes[one].type, nodes[other].type} != {"entity"}:
            return False
        names = [
            {(it["scheme"].lower(), it["id"]) for it in nodes[node].details["identifiers"]} for node in (one, other)
        ]
        return super().is_alias(one, other, nodes) or bool(names[0] & names[1])


class RecordsOfAllAgents(Planted):
    """Equal records of two agents are aliases."""

    def is_alias(self, one, other, nodes):
        both = {nodes[one].type, nodes[other].type} == {"entity"}
        return super().is_alias(one, other, nodes) or both and one != other and one[2] == other[2]


class IdentifiersAlone(Planted):
    """Equal records of two declarations are no aliases."""

    def is_alias(self, one, other, nodes):
        return one[2] != other[2] and super().is_alias(one, other, nodes)


class AliasesOfOneStep(Planted):
    """Aliases of aliases are not looked for."""

    def classes(self, nodes):
        names = {node: node for node in nodes}
        for one in nodes:
            for other in nodes:
                if (names[one], names[other]) == (one, other) and self.is_alias(one, other, nodes):
                    names[other] = one
        return names


class EndsOfAnyDeclaration(Planted):
    """An end of a relationship is looked for in each declaration of its agent."""

    def end_of(self, node, record, nodes):
        ends = [end for end in nodes if (end[0], end[2]) == (node[0], record)]
        return super().end_of(node, record, nodes) or next(iter(sorted(ends)), None)


# ---- what is seen


class DraftsAreShown(Planted):
    """Drafts of others are seen."""

    breaks_isolation = True

    def is_seen(self, filing, agent, viewer):
        return not filing.withdrawn


class OthersAreLeftOut(Planted):
    """What others have published is not seen."""

    def is_seen(self, filing, agent, viewer):
        return agent == viewer and not filing.withdrawn


class ClosedStaysOpen(Planted):
    """A closed record stays open."""

    def latest(self, rows, date):
        return {(agent, it.declaration, it.record): it for agent, it in rows if it.day <= date}


class LatestOfAllDates(Planted):
    """The latest statement is taken before the date is looked at."""

    def latest(self, rows, date):
        return {node: it for node, it in super().latest(rows, "9999-12-31").items() if it.day <= date}


class FirstOfItsDate(Planted):
    """Of two statements of one date the first one counts."""

    def latest(self, rows, date):
        kept, met = [], set()
        for agent, it in rows:
            if (agent, *record_of(it), it.day) not in met:
                met.add((agent, *record_of(it), it.day))
                kept.append((agent, it))
        return super().latest(kept, date)


# ---- filings


class IdsOfAllAgents(Planted):
    """An identifier of a statement is one over all agents."""

    breaks_isolation = True

    def live(self, name):
        others = [
            (it, "0000-01-01")
            for agent in self.filings
            if agent != name
            for it, _ in super(IdsOfAllAgents, self).live(agent)
        ]
        own = super().live(name)
        taken = {it.id for it, _ in others}
        self.taken = taken
        return own

    def lodge(self, name, key, due, data):
        told = super().lodge(name, key, due, data)
        filing = self.under(name, key)
        if told.startswith(b"HTTP/1.1 201") and any(it.id in self.taken for it in filing.statements):
            self.filings[name].pop()
            raise Refused("StatementTwice", None, 1)
        return told


class NumbersOfAllAgents(Planted):
    """A filing has its number among those of all agents."""

    breaks_isolation = True

    def line(self, filing, status=200):
        before = sum(len(filings) for filings in self.filings.values()) - 1
        number, filing.number = filing.number, filing.number + before
        try:
            return super().line(filing, status)
        finally:
            filing.number = number


class KeysOfAllAgents(Planted):
    """A key is one over all agents."""

    breaks_isolation = True

    def lodge(self, name, key, due, data):
        others = [other for other in self.filings if other != name]
        if any(self.under(other, key) for other in others):
            raise Refused("KeyReused")
        return super().lodge(name, key, due, data)


class PointZeroIsWhole(Planted):
    """A numeral with nothing behind its point is read as a whole one."""

    def lodge(self, name, key, due, data):
        return super().lodge(name, key, due, data.replace(b"25.0", b"25"))


class RepeatIsRefused(Planted):
    """A repeated lodging is refused."""

    def lodge(self, name, key, due, data):
        if self.under(name, key):
            raise Refused("KeyReused")
        return super().lodge(name, key, due, data)


class SuccessorIsIgnored(Planted):
    """A filing is withdrawn though a later one stands on it."""

    def withdraw(self, name, key):
        filing = self.under(name, key)
        if not filing or self.state(filing) == "published":
            return super().withdraw(name, key)
        filing.withdrawn, filing.statements = True, []
        return self.line(filing)


# ---- evidence


def of_persons(chains, nodes):
    """The first of the chains from each person."""
    persons = {}
    for chain in chains:
        if nodes[chain[0].party].type == "person":
            persons.setdefault(chain[0].party, chain)
    return persons


class ChainFoundFirst(Planted):
    """A person's evidence is the chain that is found first, though another is shorter."""

    def first_chains(self, nodes, links, same, target):
        chains = {}

        def follow(link, below):
            chains[link] = [link, *below]
            for other in links:
                if other not in chains and self.leads_to(other, link, nodes, same):
                    follow(other, chains[link])

        for link in links:
            if link not in chains and self.is_last(link, target, same):
                follow(link, [])
        return chains


class LongestChain(Planted):
    """A person's evidence is the longest of the first chains from its links."""

    def evidence_chains(self, nodes, links, same, target):
        chains = self.first_chains(nodes, links, same, target).values()
        return of_persons(sorted(chains, key=lambda chain: (-len(chain), chain_order(chain))), nodes)


class LastLinkDecides(Planted):
    """Chains of one length are compared from the entity on."""

    def evidence_chains(self, nodes, links, same, target):
        """Each link with the first chain from the entity up to it, and then the persons'."""
        chains = {link: [link] for link in sorted(links, key=link_order) if self.is_last(link, target, same)}
        newest = chains
        while newest:
            longer = {}
            for below, chain in newest.items():
                for link in sorted(links, key=link_order):
                    if link not in chains and self.leads_to(link, below, nodes, same):
                        longer.setdefault(link, [link, *chain])
            chains, newest = {**chains, **longer}, longer
        return of_persons(chains.values(), nodes)


class LastInOrder(Planted):
    """Of the last links that fit, the last in order is told."""

    def first_chains(self, nodes, links, same, target):
        chains = super().first_chains(nodes, links, same, target)
        lasts = sorted((link for link, chain in chains.items() if len(chain) == 1), key=link_order)
        for link, chain in chains.items():
            if len(chain) > 1:
                fitting = [it for it in lasts if self.leads_to(chain[-2], it, nodes, same)]
                chains[link] = [*chain[:-1], fitting[-1]]
        return chains


class OtherOrder(Planted):
    """Chains whose links have another order; those that are wrong say which."""

    def orders(self, links):
        raise NotImplementedError

    def evidence_chains(self, nodes, links, same, target):
        order = self.orders(links)
        last = [link for link in links if self.is_last(link, target, same)]
        chains = first_lists(last, links, lambda it, below: self.leads_to(it, below, nodes, same), order)
        return of_persons(sorted(chains.values(), key=lambda it: (len(it), list(map(order, it)))), nodes)


class LinksAsLodged(OtherOrder):
    """Of two links the one that was lodged first comes first."""

    def orders(self, links):
        return {link: place for place, link in enumerate(links)}.get


class LinksByAgent(OtherOrder):
    """Links are compared by agent and declaration before their records."""

    def orders(self, links):
        return lambda link: in_bytes(relationship(link))


class EvidenceMustEndInStake(Planted):
    """No evidence ends in a link that is no stake."""

    def evidence_chains(self, nodes, links, same, target):
        kept = [link for link in links if link.stake]
        return super().evidence_chains(nodes, kept, same, target)


class LongChainsAreLeftOut(Planted):
    """A person whose chain has more than two links has no evidence."""

    def evidence_chains(self, nodes, links, same, target):
        persons = super().evidence_chains(nodes, links, same, target)
        return {person: chain for person, chain in persons.items() if len(chain) < 3}


class EvidenceOfDrafts(Planted):
    """Evidence stands on links of others' drafts between what is seen."""

    breaks_isolation = True

    def evidence_told(self, viewer, date, target, graph):
        nodes, _, same = graph
        rows = self.latest([(agent, it) for agent in self.filings for it, _ in self.live(agent)], date)
        links = [self.link(node, it, nodes, date) for node, it in rows.items() if it.type == "relationship"]
        return super().evidence_told(viewer, date, target, (nodes, [link for link in links if link], same))


class PathFoundFirst(Planted):
    """A path of aliases is the one that is found first, though another is shorter."""

    def alias_path(self, one, other, nodes, same):
        met = {one}

        def path(it):
            if it == other:
                return [it]
            for step in sorted(nodes, key=record_first):
                if step not in met and self.is_alias(it, step, nodes):
                    met.add(step)
                    found = path(step)
                    if found:
                        return [it, *found]
            return None

        return path(one) if one != other else []


class PathIsLast(Planted):
    """Of the shortest paths of aliases the last one is told."""

    def alias_path(self, one, other, nodes, same):
        def precedes(it, below):
            return self.is_alias(it, below, nodes)

        if one == other:
            return []
        items = sorted((it for it in nodes if same[it] == same[other]), key=record_first, reverse=True)
        places = {it: place for place, it in enumerate(items)}
        return first_lists([other], items, precedes, places.get)[one]


class PathByAgent(Planted):
    """Paths of aliases are compared by agent and declaration before their records."""

    def alias_path(self, one, other, nodes, same):
        items = [it for it in nodes if same[it] == same[other]]
        paths = first_lists([other], items, lambda it, below: self.is_alias(it, below, nodes), in_bytes)
        return paths[one] if one != other else []


class EndsAreAliases(Planted):
    """Both ends of a path stand side by side, though they are no aliases."""

    def alias_path(self, one, other, nodes, same):
        return [] if one == other else [one, other]


class PathIsEmpty(Planted):
    """No path of aliases is told."""

    def alias_path(self, one, other, nodes, same):
        return []


class RecordsOfToday(Planted):
    """The records are those of the register's day, whatever the date."""

    def evidence_rows(self, viewer, date):
        return super().evidence_rows(viewer, self.day)


class FirstStatements(Planted):
    """A record is told by the first of its statements."""

    def evidence_rows(self, viewer, date):
        rows = super().evidence_rows(viewer, date)
        first = {}
        for agent, it in self.visible(viewer):
            first.setdefault((agent, *record_of(it)), it)
        return {node: first[node] for node in rows}


class RecordsOfLinksAlone(Planted):
    """The records within a path of aliases are not told."""

    def met(self, persons, tree, target):
        return super().met(persons, {link: (below, []) for link, (below, _) in tree.items()}, target)


class FirstIsLast(Planted):
    """A person's first link is the one at the entity."""

    def chain_line(self, person, chain, nodes):
        return super().chain_line(person, chain[::-1], nodes)


# ---- entities by an identifier


class EntitiesOfDrafts(Planted):
    """Entities are found in others' drafts."""

    breaks_isolation = True

    def entities_seen(self, viewer):
        return [(agent, it) for agent, filings in self.filings.items() for filing in filings for it in filing.statements]


class EntitiesOfFormerNumbers(Planted):
    """An entity is found by a number that an earlier statement has."""

    def entities_seen(self, viewer):
        self.seen = super().entities_seen(viewer)
        return self.seen

    def identified(self, rows, identifier):
        had = {
            (agent, *record_of(it))
            for agent, it in self.seen
            if it.type == "entity" and identifier in it.details["identifiers"]
        }
        return sorted((node for node in rows if node in had), key=in_bytes)


class FirstIdentifierAlone(Planted):
    """An entity is found by the first of its identifiers alone."""

    def identified(self, rows, identifier):
        found = super().identified(rows, identifier)
        return [node for node in found if rows[node].details["identifiers"][0] == identifier]


class FirstEntityAlone(Planted):
    """One entity of a number is found."""

    def identified(self, rows, identifier):
        return super().identified(rows, identifier)[:1]


class EntitiesAsLodged(Planted):
    """Entities are listed in the order of lodging."""

    def identified(self, rows, identifier):
        found = super().identified(rows, identifier)
        return [node for node in rows if node in found]


class EntitiesByScheme(Planted):
    """The scheme decides which entities are found."""

    def identified(self, rows, identifier):
        schemes = {node: [has["scheme"] for has in it.details["identifiers"]] for node, it in rows.items() if it.type == "entity"}
        return sorted((node for node, told in schemes.items() if identifier["scheme"] in told), key=in_bytes)


PLANTED = [
    HalfCounts,
    OpenHalfIsNone,
    IndirectCounts,
    EndedCounts,
    UnbegunCounts,
    EndIsLeftOut,
    CountsToday,
    SharesAreVotes,
    BoardAloneIsStake,
    BoardNeedsItsShare,
    LastMustBeStake,
    MinorityIsFollowed,
    TargetIsMiddle,
    ArrangementIsPassed,
    RegisteredAlone,
    NobodyIsNamed,
    EverybodyIsNamed,
    OneLinkAlone,
    FirstFound,
    AliasIsCounted,
    TargetsAliasesAlone,
    NoAliasOfTarget,
    SchemeIsIgnored,
    CaseIsIgnored,
    RecordsOfAllAgents,
    IdentifiersAlone,
    AliasesOfOneStep,
    EndsOfAnyDeclaration,
    DraftsAreShown,
    OthersAreLeftOut,
    ClosedStaysOpen,
    LatestOfAllDates,
    FirstOfItsDate,
    IdsOfAllAgents,
    NumbersOfAllAgents,
    KeysOfAllAgents,
    PointZeroIsWhole,
    RepeatIsRefused,
    SuccessorIsIgnored,
    ChainFoundFirst,
    LongestChain,
    LastLinkDecides,
    LastInOrder,
    LinksAsLodged,
    LinksByAgent,
    EvidenceMustEndInStake,
    LongChainsAreLeftOut,
    EvidenceOfDrafts,
    PathFoundFirst,
    PathIsLast,
    PathByAgent,
    EndsAreAliases,
    PathIsEmpty,
    RecordsOfToday,
    FirstStatements,
    RecordsOfLinksAlone,
    FirstIsLast,
    EntitiesOfDrafts,
    EntitiesOfFormerNumbers,
    FirstIdentifierAlone,
    FirstEntityAlone,
    EntitiesAsLodged,
    EntitiesByScheme,
]
