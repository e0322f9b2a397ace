"""Holds the clauses and laws that a document names against the contracts, as tools/clauses reads them.

A document names them in these forms; each name stands between backticks, and A, B stands for A, B and C too:

    clause `A` of `CALL`; clauses `A`, `B` of `CALL`; clause `A` of `CALL`, `CALL`
    `CALL`, clauses `A`, `B`
    clause `A`, where the call is known: some call has it
    law `LAW`; laws `LAW`, `LAW`

Further pairs may follow in one list, as in: clause `A` of `CALL`, `B` of `CALL` and `C` of `CALL`. Of the names
between two 'of' the first is a call, and the others are clauses of the next one. Such pairs are also held where the
word clause stands elsewhere in the line, and in rows of tables, if the last name is that of a call. In a table each
name alone in a column whose head has the word law is a law.

CALL is a function or a trait by its name, public or not, or by the end of its path, as `SqlKeep::open`, or by its
path from its crate on. Behind a call or a law may stand its file or its crate: (`bor_wire/src/replies.rt`), or in
`bor_wire`.
"""
import functools
import re
import sys
from pathlib import Path

sys.path.append(str(Path(__file__).resolve().parent.parent.parent / "tools" / "lib"))

from clauses import CRATES, all_calls

SPAN = re.compile(r"`([^`]+)`")
WORD = re.compile(r"[A-Za-z_]\w*(?:::\w+)*")
JOINT = re.compile(r"(?:[^`().]*\))?,?(?: and| or)? ")
PLACE = re.compile(r" \(|,? in ")
CLAUSE = re.compile(r"\b[Cc]lauses? $")
LAW = re.compile(r"\b[Ll]aws? $")


# ---- what there is


@functools.lru_cache(maxsize=None)
def calls_by_name():
    """All calls by the last word of their paths."""
    found = {}
    for call in all_calls():
        found.setdefault(call.name, []).append(call)
    return found


def is_path_of(name, call):
    return any(path == name or path.endswith(f"::{name}") for path in (call.path, *call.names))


def is_in(place, call):
    """Whether a call stands in a file, in a folder or in a crate. Without a place it does."""
    path = place.removeprefix("crates/")
    return not place or f"{call.file}/".startswith(f"crates/{path.rstrip('/')}/")


def calls(name, place=""):
    known = calls_by_name().get(name.rpartition("::")[2], [])
    return [it for it in known if is_path_of(name, it) and is_in(place, it)]


def is_clause(name, call, place):
    return any(it.clause(name) for it in calls(call, place))


@functools.lru_cache(maxsize=None)
def clause_names():
    return {clause.name for call in all_calls() for clause in call.clauses}


# ---- lists of names in a line


def is_place(text):
    return "/" in text or text in CRATES


class Line:
    """The names of a line and what stands between them: `before[i]` is what stands in front of the name i."""

    def __init__(self, text):
        found = list(SPAN.finditer(text))
        ends = [0, *(it.end() for it in found)]
        self.text = text
        self.names = [it[1] for it in found]
        self.before = [text[end : it.start()] for end, it in zip(ends, found)]
        self.is_row = text.startswith("|")

    def place_of(self, at):
        """The place that stands behind the name, or nothing."""
        behind = at + 1
        if behind < len(self.names) and PLACE.fullmatch(self.before[behind]) and is_place(self.names[behind]):
            return self.names[behind]
        return ""

    def lists(self):
        """The lists of names: each is of the places in the line, and between two of them stands None for 'of'."""
        at = 0
        while at < len(self.names):
            found, at = self.list_from(at)
            if found:
                yield found

    def list_from(self, at):
        """The list that begins with this name, and the name behind it."""
        found, behind = [], at
        while behind < len(self.names) and WORD.fullmatch(self.names[behind]):
            if found and self.before[behind] == " of ":
                found.append(None)
            elif found and not JOINT.fullmatch(self.before[behind]):
                break
            found.append(behind)
            behind += 2 if self.place_of(behind) else 1
        return found, max(behind, at + 1)


def pairs(found):
    """Of a list with 'of', each clause with each of its calls, as places in the line."""
    parts, part = [], []
    for it in [*found, None]:
        if it is None:
            parts.append(part)
            part = []
        else:
            part.append(it)
    names = parts[0]
    for number, part in enumerate(parts[1:], 2):
        is_last = number == len(parts)
        yield from ((name, call) for call in (part if is_last else part[:1]) for name in names)
        names = part[1:]


# ---- what a line names


def missing_pairs(line, found, is_sure):
    """The clauses of a list with 'of' that aren't there. With `is_sure` the word clause stands in front."""
    for name, call in pairs(found):
        clause, of, place = line.names[name], line.names[call], line.place_of(call)
        if not is_sure and not (clause.islower() and any(it.clauses for it in calls(of))):
            continue
        if not is_clause(clause, of, place):
            yield f"clause `{clause}` of `{of}`" + (f" in {place}" if place else "")


def missing_alone(line, found):
    """The clauses of a list without 'of' that aren't there: of the call in front, if one stands there, or of any."""
    first = found[0]
    is_behind = first > 0 and re.fullmatch(r",? clauses? ", line.before[first]) is not None
    call = line.names[first - 1] if is_behind else ""
    for name in (line.names[it] for it in found):
        if not (is_clause(name, call, "") if is_behind else name in clause_names()):
            yield f"clause `{name}`" + (f" of `{call}`" if is_behind else "")


def missing_laws(line, found):
    for at in found:
        place = line.place_of(at)
        if not any(it.is_law for it in calls(line.names[at], place)):
            yield f"law `{line.names[at]}`" + (f" in {place}" if place else "")


def missing_in(line, has_laws):
    """The clauses and laws that a line names and that aren't there, list by list."""
    for found in line.lists():
        before = line.before[found[0]]
        is_sure = CLAUSE.search(before) is not None
        if None in found:
            if is_sure or line.is_row or re.search(r"\b[Cc]lauses?\b", line.text):
                yield from missing_pairs(line, found, is_sure)
        elif is_sure:
            yield from missing_alone(line, found)
        elif LAW.search(before) or has_laws:
            yield from missing_laws(line, found)


# ---- a document


def cells(text):
    return text.strip().strip("|").split("|")


def missing_in_row(text, head):
    """The clauses and laws that a row of a table names and that aren't there, cell by cell."""
    for cell, title in zip(cells(text), head):
        has_laws = re.search(r"\blaws?\b", title, re.IGNORECASE) is not None
        line = Line(cell)
        line.is_row = True
        yield from missing_in(line, has_laws)


def missing(lines):
    """Of lines with their numbers: the numbers and names of the clauses and laws that aren't there."""
    head = []
    for number, text in lines:
        if not text.startswith("|"):
            head = []
            yield from ((number, it) for it in missing_in(Line(text), False))
            continue
        head = head or cells(text)
        yield from ((number, it) for it in missing_in_row(text, head))
