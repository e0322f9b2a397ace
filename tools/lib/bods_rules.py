"""The register's profile of BODS 0.4 as its tables say it: all faults of a file, in the table's order, and of its records.

`tools/bods` and the second reader of the tests share this. Nothing here is proved: `bor check` and the register answer.
"""
import dataclasses
import functools
from dataclasses import dataclass

DAY_LENGTH = 10
FILE_LIMIT, STATEMENTS_LIMIT, ITEMS_LIMIT = 1_048_576, 1000, 100
NAMED = ["shareholding", "votingRights", "appointmentOfBoard"]
ENTITIES = [
    "registeredEntity",
    "legalEntity",
    "arrangement",
    "anonymousEntity",
    "unknownEntity",
    "state",
    "stateBody",
]
PERSONS = ["knownPerson", "anonymousPerson", "unknownPerson"]
TYPES = ["entity", "person", "relationship"]
STATUSES = ["new", "updated", "closed"]
BOUNDS = ["exact", "minimum", "maximum", "exclusiveMinimum", "exclusiveMaximum"]


@dataclass
class Fault:
    """A refusal's name, the member that it is about, the place of its statement from 1, and the path to what is wrong.

    Of a record's fault, `last` is what its last statement before this one says.
    """

    name: str
    field: str = None
    place: int = None
    path: tuple = ()
    last: object = dataclasses.field(default=None, compare=False)

    def line(self):
        """As `bor check` tells it."""
        place = f" at {self.place}" if self.place else ""
        return f"{self.name}{place}{f' in {self.field}' if self.field else ''}"


# ---- values


def is_ident(value):
    if not isinstance(value, str):
        return False
    data = value.encode()
    return 1 <= len(data) <= 255 and all(byte >= 0x20 and byte != 0x7F for byte in data)


def is_leap(year):
    return year % 4 == 0 and (year % 100 != 0 or year % 400 == 0)


def day_of(value):
    """The day that a text names, as its first ten letters."""
    if not isinstance(value, str) or value[DAY_LENGTH : DAY_LENGTH + 1] not in ("", "T"):
        return None
    parts = value[:DAY_LENGTH].split("-")
    if [len(part) for part in parts] != [4, 2, 2] or not all(part.isascii() and part.isdigit() for part in parts):
        return None
    year, month, day = map(int, parts)
    lengths = [31, 29 if is_leap(year) else 28, 31, 30, 31, 30, 31, 31, 30, 31, 30, 31]
    if not 1 <= month <= 12 or not 1 <= day <= lengths[month - 1]:
        return None
    return value[:DAY_LENGTH]


def month_of(value):
    """The year and the month that a text of exactly YYYY-MM names."""
    return value if len(value) == 7 and day_of(f"{value}-01") else None


def year_of(value):
    return value if len(value) == 4 and day_of(f"{value}-01-01") else None


def start_of(value):
    """The first day of the day, the month or the year that a text names."""
    if not isinstance(value, str):
        return None
    names = [value, f"{month_of(value)}-01", f"{year_of(value)}-01-01"]
    return next((day_of(name) for name in names if day_of(name)), None)


def end_of(value):
    """The last day of what a text names, of a month the last of the days from the 28th on."""
    if not isinstance(value, str):
        return None
    month = month_of(value)
    names = [value, *[f"{month}-{day}" for day in (31, 30, 29, 28)], f"{year_of(value)}-12-31"]
    return next((day_of(name) for name in names if day_of(name)), None)


def one_of(words):
    return lambda value: value if isinstance(value, str) and value in words else None


def is_object(value):
    return isinstance(value, dict)


def is_end(value):
    """Whether a value is an end of a relationship: the identifier of a record, or an object."""
    return is_ident(value) or isinstance(value, dict)


def member(value, name):
    return value.get(name) if isinstance(value, dict) else None


def text(value):
    return value if isinstance(value, str) else None


# ---- shares


def bound_fault(name, value):
    """Why a value is no bound of a share, with the member's name where the refusal has it."""
    if value is None:
        return None
    if isinstance(value, bool):
        return None if name.startswith("exclusive") else ("Bad", name)
    if isinstance(value, float) or isinstance(value, int) and not -(2**63) <= value < 2**64:
        return "Fraction", None
    if not isinstance(value, int):
        return "Bad", name
    return None if 0 <= value <= 100 else ("ShareRange", None)


def meets(half, exact, minimum, maximum, above, below):
    """Whether a number of half percents meets every bound."""
    if exact is not None:
        return half == 2 * exact
    if minimum is not None and (half < 2 * minimum or above is True and half == 2 * minimum):
        return False
    if maximum is not None and (half > 2 * maximum or below is True and half == 2 * maximum):
        return False
    if above is not None and above is not True and above is not False and half <= 2 * above:
        return False
    return below is None or below is True or below is False or half < 2 * below


@functools.lru_cache(maxsize=4096, typed=True)
def points(*bounds):
    """The half percents that meet these bounds; `typed`, since true is no 1."""
    return frozenset(half for half in range(201) if meets(half, *bounds))


def points_of(share):
    """The half percents that meet every bound of a share without a fault."""
    return points(*(share.get(name) for name in BOUNDS))


# ---- the table of members: all lines that fail, in its order


def file_faults(value):
    """The faults of a file's value."""
    if not isinstance(value, list):
        yield Fault("NotAList")
        return
    if not value:
        yield Fault("NoStatements")
    if len(value) > STATEMENTS_LIMIT:
        yield Fault("TooMany")
    for place, item in enumerate(value, 1):
        yield from statement_faults(item, place)


def member_fault(members, name, place, path, fits, is_needed=True):
    """The fault of one member, in a list, or none."""
    value = members.get(name)
    if value is None:
        return [Fault("Missing", name, place, path)] if is_needed else []
    return [] if fits(value) else [Fault("Bad", name, place, (*path, name))]


def list_fault(members, name, place, path):
    value = members.get(name)
    if value is not None and not isinstance(value, list):
        return [Fault("Bad", name, place, (*path, name))]
    return [Fault("TooLong", name, place, (*path, name))] if value and len(value) > ITEMS_LIMIT else []


def statement_faults(value, place):
    path = (place - 1,)
    if not isinstance(value, dict):
        yield Fault("Bad", "statement", place, path)
        return
    for name, fits in (
        ("statementId", is_ident),
        ("statementDate", day_of),
        ("declarationSubject", is_ident),
        ("recordId", is_ident),
        ("recordType", one_of(TYPES)),
    ):
        yield from member_fault(value, name, place, path, fits)
    yield from member_fault(value, "recordStatus", place, path, one_of(STATUSES), is_needed=False)
    yield from member_fault(value, "recordDetails", place, path, is_object)
    kind, details = text(value.get("recordType")), value.get("recordDetails")
    path = (*path, "recordDetails")
    if kind == "entity" and is_object(details):
        yield from list_fault(details, "identifiers", place, path)
    if kind == "relationship" and is_object(details):
        yield from relationship_faults(details, place, path)


def relationship_faults(details, place, path):
    for name in ("subject", "interestedParty"):
        yield from member_fault(details, name, place, path, is_end)
    found = list_fault(details, "interests", place, path)
    yield from found
    if not found:
        for at, item in enumerate(details.get("interests") or []):
            yield from interest_faults(item, place, (*path, "interests", at))


def interest_faults(value, place, path):
    if not isinstance(value, dict):
        yield Fault("Bad", "interests", place, path)
        return
    share = value.get("share") if text(value.get("type")) in NAMED else None
    if share is None:
        return
    path = (*path, "share")
    if not isinstance(share, dict):
        yield Fault("Bad", "share", place, path)
        return
    found = [(name, bound_fault(name, share.get(name))) for name in BOUNDS]
    faults = [Fault(*fault, place, (*path, name)) for name, fault in found if fault]
    yield from faults
    if not faults and not points_of(share):
        yield Fault("EmptyShare", None, place, path)


# ---- records


@dataclass
class Last:
    """What a record's last live statement says; its place in the file, where it is of one."""

    type: str
    status: str
    day: str
    due: str = None
    place: int = None


class Records:
    """The live statements of an agent: by their identifiers where they stand and of which record, and the last one of each record."""

    def __init__(self):
        self.ids, self.last = {}, {}

    def copy(self):
        """The same, to which more may be added."""
        other = Records()
        other.ids, other.last = dict(self.ids), dict(self.last)
        return other

    def refusals(self, key, kind, status, day, due=None):
        """All that refuses a statement of a record, in order."""
        last = self.last.get(key)
        if not last:
            return ["RecordUnknown"] if status in ("updated", "closed") else []
        tests = [
            ("TypeChanged", last.type != kind),
            ("RecordExists", status == "new"),
            ("RecordClosed", last.status == "closed"),
            ("DateBack", day < last.day),
            ("DueBeforeRecord", due is not None and last.due is not None and due < last.due),
        ]
        return [name for name, holds in tests if holds]

    def add(self, statement, due=None, place=None):
        """Adds a statement of a value; gives what refuses it. One that is refused counts as far as a mended one would.

        Of one that stands there twice nothing is said but that.
        """
        key = statement["declarationSubject"], statement["recordId"]
        kind, status, day = statement["recordType"], statement.get("recordStatus"), day_of(statement["statementDate"])
        _, other = self.ids.setdefault(statement["statementId"], (place, None))
        if other == key:
            return ["StatementTwice"]
        found = ["StatementTwice"] if other else []
        found += self.refusals(key, kind, status, day, due)
        if not other:
            self.ids[statement["statementId"]] = place, key
        last = self.last.get(key)
        if not last:
            self.last[key] = Last(kind, "closed" if status == "closed" else "new", day, due, place)
        elif not {"StatementTwice", "TypeChanged", "RecordClosed", "DateBack"} & set(found):
            self.last[key] = Last(kind, "closed" if status == "closed" else "updated", day, due, place)
        return found


MEMBER_OF = {
    "StatementTwice": "statementId",
    "TypeChanged": "recordType",
    "RecordExists": "recordStatus",
    "RecordUnknown": "recordStatus",
    "RecordClosed": "recordId",
    "DateBack": "statementDate",
    "DueBeforeRecord": "recordId",
}
READ_FIRST = ["statementId", "statementDate", "declarationSubject", "recordId", "recordType", "recordStatus"]


def record_faults(value, records, due=None, where=None):
    """The faults of a file's statements behind those of its members: each after the live ones and the file's earlier ones.

    `where` is what is said of a statement's place later on, where that isn't its place in the list.
    """
    if not isinstance(value, list):
        return
    for place, item in enumerate(value, 1):
        if any(it.field in [*READ_FIRST, "statement"] for it in statement_faults(item, place)):
            continue
        last = records.last.get((item["declarationSubject"], item["recordId"]))
        for name in records.add(item, due, where or place):
            yield Fault(name, None, place, (place - 1, MEMBER_OF[name]), last)
