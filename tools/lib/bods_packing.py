"""Statements in an order in which none refers to a later one, and in as few files as hold them without tearing."""
from bods_rules import FILE_LIMIT, STATEMENTS_LIMIT, day_of, member, text
from bods_versions import Groups

OPENING, BETWEEN, CLOSING = "[\n", ",\n", "\n]\n"
# A group is put into one of the last so many files, where it has room there.
LOOKED_AT = 50


def key_of(item):
    return text(member(item.became, "declarationSubject")), text(member(item.became, "recordId"))


def ends_of(item):
    """The records that a relationship refers to, of its declaration."""
    details = member(item.became, "recordDetails")
    names = [text(member(details, name)) for name in ("subject", "interestedParty")]
    return [(key_of(item)[0], name) for name in names if name is not None]


def turn_of(item):
    """What tells a statement's turn among those of its record: which one begins it, which one ends it, and their dates."""
    status = text(member(item.became, "recordStatus"))
    return {"new": 0, "closed": 2}.get(status, 1), day_of(member(item.became, "statementDate"))


def set_turns(items):
    """Has the statements of a record need one another in their turn, where they stand in another one."""
    series = {}
    for item in items:
        if None not in key_of(item):
            series.setdefault(key_of(item), []).append(item)
    for found in series.values():
        statuses, days = zip(*map(turn_of, found))
        if all(days) and statuses.count(0) < 2 and statuses.count(2) < 2:
            turned = sorted(found, key=turn_of)
            for one, other in zip(turned, turned[1:] if turned != found else []):
                other.needs = [*other.needs, one]


def ordered(items):
    """The items as they stand, but for those that others refer to: each comes before the first that does, its `before`."""
    first = {}
    for item in items:
        if member(item.became, "recordType") in ("entity", "person"):
            first.setdefault(key_of(item), item)
    present, done, told = {id(item) for item in items}, set(), []
    for item in items:
        waiting = [item]
        while waiting:
            needed = [it for it in [*waiting[-1].needs, *(first.get(end) for end in ends_of(waiting[-1]))] if it]
            needed = [it for it in needed if id(it) in present and id(it) not in done and it not in waiting]
            if needed and id(waiting[-1]) not in done:
                waiting.append(needed[0])
                continue
            last = waiting.pop()
            if id(last) not in done:
                done.add(id(last))
                told.append(last)
                last.before = item if last is not item else None
    return told


def referred_later(groups):
    """How many relationships refer to what a later group states first."""
    first, count = {}, 0
    for at, group in enumerate(groups):
        for item in group:
            if member(item.became, "recordType") in ("entity", "person"):
                first.setdefault(key_of(item), at)
    for at, group in enumerate(groups):
        count += sum(any(first.get(end, at) > at for end in ends_of(item)) for item in group)
    return count


class Part:
    """A file that is written."""

    def __init__(self, items, data):
        self.items, self.data, self.name = items, data, None


def joined_text(items):
    return OPENING + BETWEEN.join(item.told for item in items) + CLOSING


def in_place(source, items):
    """A source's own text with its statements in this order, and all that stands between them as it was."""
    nodes, text = [item.node for item in source.items], source.file.source
    # (a blank stands where a byte order mark was)
    parts = [text[int(source.file.has_mark) : nodes[0].start]]
    for at, item in enumerate(items):
        end = nodes[at + 1].start if at + 1 < len(nodes) else len(text)
        parts += [item.told, text[nodes[at].end : end]]
    return "".join(parts)


def parts_of(items, source=None):
    """The files of items; `source` is the list that they are, where they are one whole."""
    if not items:
        return []
    if len(items) <= STATEMENTS_LIMIT:
        texts = [in_place(source, items)] if source else []
        for text in [*texts, joined_text(items)]:
            data = text.encode()
            if len(data) <= FILE_LIMIT:
                return [Part(items, data)]
    return [Part(it, joined_text(it).encode()) for it in packed(items)]


class Box:
    """Items of one file, with the bytes that they take."""

    def __init__(self):
        self.items, self.bytes = [], len(OPENING) + len(CLOSING)

    def takes(self, count, size):
        return len(self.items) + count <= STATEMENTS_LIMIT and self.bytes + size <= FILE_LIMIT

    def add(self, items, size):
        self.items += items
        self.bytes += size


def packed(items):
    """The items in lists, what hangs together in one where that has room for it."""
    place = {id(item): at for at, item in enumerate(items)}
    boxes = []
    for group in groups_of(items):
        sizes = [len(item.told.encode()) + len(BETWEEN) for item in group]
        count, size = len(group), sum(sizes)
        box = next((it for it in boxes[-LOOKED_AT:] if it.takes(count, size)), None)
        if box is None and Box().takes(count, size):
            box = Box()
            boxes.append(box)
        if box:
            box.add(group, size)
            continue
        boxes.append(Box())
        for item, one in zip(group, sizes):
            if not boxes[-1].takes(1, one) and boxes[-1].items:
                boxes.append(Box())
            boxes[-1].add([item], one)
    return [sorted(box.items, key=lambda item: place[id(item)]) for box in boxes]


def groups_of(items):
    """What hangs together by its ends or is of one record, in the order of the first of each."""
    groups, found = Groups(), {}
    for item in items:
        groups.top(key_of(item))
        for end in ends_of(item):
            groups.join(key_of(item), end)
    for item in items:
        found.setdefault(groups.top(key_of(item)), []).append(item)
    return list(found.values())
