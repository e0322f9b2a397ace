"""A second answer to why persons are named: a first chain of each, its links as a tree, and the statements it stands on.

Chains and paths of aliases are found by rounds over whole lists: a round has the lists of one length, and of those
that begin alike the first one in their order.
"""


def named(node):
    return dict(zip(("agent", "declaration", "record"), node))


# ---- orders, each of bytes


def in_bytes(parts):
    return [part.encode() for part in parts]


def record_first(node):
    """By record, then declaration, then agent."""
    return in_bytes(reversed(node))


def link_order(link):
    """By the relationship's record, then by the subject; no two links of one register are alike in both."""
    return link.record.encode(), record_first(link.subject)


def chain_order(chain):
    """The shorter one first; of one length by the first link, from the person on, that differs."""
    return len(chain), [link_order(link) for link in chain]


def relationship(link):
    """The relationship's own record; both ends have its agent and declaration."""
    return (*link.subject[:2], link.record)


# ---- shortest lists


def first_lists(last, items, precedes, order):
    """For each item that leads to one of the last ones, the first in order of its shortest lists."""
    found = {item: [item] for item in last}
    newest = found
    while newest:
        longer = {}
        for item in items:
            lists = [[item, *rest] for rest in newest.values() if item not in found and precedes(item, rest[0])]
            if lists:
                longer[item] = min(lists, key=lambda it: [order(one) for one in it])
        found, newest = {**found, **longer}, longer
    return found


class Evidence:
    """What a register tells of the chains by which it names persons; `Register` says what a chain is."""

    def first_chains(self, nodes, links, same, target):
        """The first chain from each link that leads to the target."""
        last = [link for link in links if self.is_last(link, target, same)]
        return first_lists(last, links, lambda link, below: self.leads_to(link, below, nodes, same), link_order)

    def evidence_chains(self, nodes, links, same, target):
        """The first of all chains of each person."""
        persons = {}
        for chain in self.first_chains(nodes, links, same, target).values():
            party = chain[0].party
            if nodes[party].type == "person":
                persons[party] = min(persons.get(party, chain), chain, key=chain_order)
        return persons

    def alias_path(self, one, other, nodes, same):
        """The first of the shortest lists from one entity to the other in which neighbours are aliases."""
        if one == other:
            return []
        items = [node for node in nodes if same[node] == same[other]]
        paths = first_lists([other], items, lambda it, below: self.is_alias(it, below, nodes), record_first)
        return paths[one]

    def tree(self, persons, target, nodes, same):
        """Each link of the persons' chains, with the one that follows it and the path between them."""
        follows = {link: below for chain in persons.values() for link, below in zip(chain, [*chain[1:], None])}
        return {
            link: (below, self.alias_path(link.subject, below.party if below else target, nodes, same))
            for link, below in follows.items()
        }

    def evidence_rows(self, viewer, date):
        """The statements that are told of: the last of each open record."""
        return self.latest(self.visible(viewer), date)

    def met(self, persons, tree, target):
        """Each record that the evidence is about."""
        met = {target, *persons}
        for link, (_, path) in tree.items():
            met |= {relationship(link), link.subject, link.party, *path}
        return sorted(met, key=in_bytes)

    def evidence_told(self, viewer, date, target, graph):
        nodes, links, same = graph
        persons = self.evidence_chains(nodes, links, same, target)
        tree = self.tree(persons, target, nodes, same)
        rows = self.evidence_rows(viewer, date)
        return {
            **named(target),
            "date": date,
            "links": [self.link_line(link, *tree[link]) for link in sorted(tree, key=lambda it: in_bytes(relationship(it)))],
            "persons": [self.chain_line(it, persons[it], nodes) for it in sorted(persons, key=in_bytes)],
            "records": [self.record_line(it, rows) for it in self.met(persons, tree, target) if it in rows],
        }

    # ---- lines

    def link_line(self, link, below, path):
        below = named(relationship(below)) if below else None
        return {**named(relationship(link)), "next": below, "same": [named(node) for node in path]}

    def chain_line(self, person, chain, nodes):
        first = named(relationship(chain[0]))
        return {**self.person_line(person, len(chain), nodes), "first": first}

    def record_line(self, node, rows):
        return {"agent": node[0], **self.shown(rows[node])}
