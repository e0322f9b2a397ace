"""Files of a publisher as files that a register reads, with each change that was made."""
import json
from dataclasses import dataclass

from bods_advice import advice, is_old, replaced_by
from bods_file import File
from bods_json import pointer, written
from bods_lint import finding_in, text_of_faults
from bods_packing import ordered, parts_of, set_turns
from bods_reports import Written
from bods_rules import BOUNDS, FILE_LIMIT, NAMED, Fault, Records, day_of, file_faults, is_object, member, record_faults, statement_faults, text
from bods_shares import is_whole, percent, truth_meant, whole_text, widened
from bods_versions import Rewriting, Unclear, Versions, end_id, joined, kind_meant


OLD_NAMES = {"statementId": "statementID", "recordType": "statementType", "recordStatus": "replacesStatements"}
# What stands beside a statement in a file of its own.
BESIDE = 10


class Unconverted(Exception):
    """What would be refused, or isn't clear, in lines; nothing is written then."""

    def __init__(self, lines):
        super().__init__(lines[-1])
        self.lines = lines


@dataclass
class Change:
    """What was done at a place of a source."""

    name: str
    source: str
    line: int
    column: int
    pointer: str
    statement: str
    says: str


class Source:
    """A file that is converted."""

    def __init__(self, name, data):
        self.name, self.file, self.items = "standard input" if name == "-" else name, File(data), []
        self.file.is_converting = True

    def change(self, name, says, start=0, told="", statement=None):
        return Change(name, self.name, *self.file.place_of(start), told, statement, says)


class Item:
    """A statement of a source, with the edits of its text and the changes that these are."""

    def __init__(self, source, place, node):
        self.source, self.place, self.node, self.value = source, place, node, node.value
        self.edits, self.changes, self.told, self.needs, self.before = Edits(source.file.source), [], None, [], None

    def change(self, name, node, path, says):
        file = self.source.file
        where = pointer(path if file.shape == "single" else (*file.prefix, self.place - 1, *path))
        identifier = text(member(self.value, "statementId")) or text(member(self.value, "statementID"))
        self.changes.append(self.source.change(name, says, node.start, where, identifier))

    def where(self):
        line, _ = self.source.file.place_of(self.node.start)
        return f"{self.source.name}:{line}"


class Edits:
    """Changes of a text, each of a stretch of its own."""

    def __init__(self, source):
        self.source, self.all = source, []

    def put(self, start, end, text):
        self.all.append((start, end, text))

    def text(self, start, end):
        """The stretch with the changes in it."""
        parts, at = [], start
        for first, last, text in sorted(self.all):
            if start <= first and last <= end:
                parts += [self.source[at:first], text]
                at = last
        return "".join([*parts, self.source[at:end]])


# ---- edits within a statement


class Editor:
    """Makes the edits of a statement: numbers of shares, older words, older ends."""

    def __init__(self, item, versions, widen):
        self.item, self.versions, self.widen, self.source = item, versions, widen, item.source.file.source

    def raw(self, node):
        return self.source[node.start : node.end]

    def replace(self, name, node, path, text, more=""):
        before = self.raw(node)
        self.item.edits.put(node.start, node.end, text)
        self.item.change(name, node, path, f"{shown_raw(before)} to {shown_raw(text)}{more}")

    def edit(self):
        """Makes all of them; an older statement is written anew behind that."""
        item, path = self.item, () if is_old(self.item.value) else ("recordDetails",)
        details = item.node if is_old(item.value) else item.node.get("recordDetails")
        if details is None or not is_object(details.value):
            return
        interests = details.get("interests")
        if interests is not None and isinstance(interests.parts, list):
            for at, node in enumerate(interests.parts):
                if is_object(node.value):
                    self.interest(node, (*path, "interests", at))
        if is_old(item.value):
            self.version_named()
        else:
            self.ends(details, path)

    def interest(self, node, path):
        kind = node.get("type")
        meant = kind_meant(kind.value) if kind else None
        if meant:
            self.replace("Version", kind, (*path, "type"), written(meant))
        level = node.keys.get("interestLevel")
        if level and "directOrIndirect" not in node.keys:
            self.item.edits.put(*level, '"directOrIndirect"')
            self.item.change("Version", node.parts["interestLevel"], (*path, "interestLevel"), "interestLevel to directOrIndirect")
        share = node.get("share")
        if kind and (meant or kind.value) in NAMED and share and is_object(share.value):
            self.share(share, (*path, "share"))

    def share(self, node, path):
        """Numbers as JSON writes whole ones; where one has a fraction, the smallest whole range, if that is asked for."""
        bounds, texts = {}, {}
        for name in BOUNDS:
            part = node.get(name)
            if part is None:
                continue
            truth = part.value if isinstance(part.value, bool) else truth_meant(name, part.value)
            if truth is not None:
                bounds[name] = truth
                texts.update({} if truth is part.value else {name: written(truth)})
                continue
            bounds[name] = percent(part.value if isinstance(part.value, str) else self.raw(part))
            if bounds[name] is not None and is_whole(bounds[name]):
                texts[name] = whole_text(bounds[name])
        if self.widen and None not in bounds.values() and (found := widened(bounds)):
            self.widen_share(node, path, found)
            return
        for name, told in texts.items():
            part = node.parts[name]
            if self.raw(part) != told:
                as_text = "NumberAsText" if told.isdigit() else "TruthAsText"
                self.replace(as_text if isinstance(part.value, str) else "WholeNumber", part, (*path, name), told)

    def widen_share(self, node, path, found):
        others = {name: self.raw(part) for name, part in node.parts.items() if name not in BOUNDS}
        told = joined({**{name: str(value) for name, value in found.items()}, **others})
        self.replace("Widened", node, path, told, ", the smallest whole range that holds it")

    def ends(self, details, path):
        """0.3's form of an end, in a statement of 0.4."""
        for name in ("subject", "interestedParty"):
            node = details.get(name)
            other = end_id(node.value) if node else None
            if other:
                record = self.versions.record_of(other)
                more = ", whose statement isn't in these files" if other in self.versions.assumed else ""
                self.replace("Version", node, (*path, name), written(record), more)

    def version_named(self):
        publication = self.item.node.get("publicationDetails")
        version = publication.get("bodsVersion") if publication and is_object(publication.value) else None
        if version and version.value != "0.4":
            self.item.edits.put(version.start, version.end, '"0.4"')
            self.item.change("Version", version, ("publicationDetails", "bodsVersion"), f'{self.raw(version)} to "0.4"')


def shown_raw(text, length=120):
    text = " ".join(text.split())
    return text if len(text) <= length else f"{text[:length]}.."


# ---- the whole


class Conversion:
    """The files that come of sources. Raises `Unconverted` where one would be refused."""

    def __init__(self, sources, live, words):
        self.live, self.words = live, words
        self.sources = [Source(name, data) for name, data in sources]
        self.unread()
        self.all = [item for source in self.sources for item in source.items]
        self.left_out, self.findings = {}, []
        try:
            self.rewrite()
        except Unclear as fault:
            raise Unconverted(self.lines([self.unclear(fault)])) from None
        groups = [self.all] if words.together else [source.items for source in self.sources]
        self.groups = [ordered([item for item in group if not self.is_there(item)]) for group in groups]
        self.judge()
        self.parts = [parts_of(group, self.whole_file(group)) for group in self.groups]
        self.prove_read()

    def unread(self):
        """The items of each source; faults that no conversion mends are told."""
        lines = []
        for source in self.sources:
            file = source.file
            if file.shape is None or not file.nodes:
                faults = [it for it in file.faults if it[0].name != "BodyTooLarge"] or [(Fault("NoStatements"), 0, None)]
                lines += self.told_unread(source, faults)
            source.items = [Item(source, place, node) for place, node in enumerate(file.nodes, 1)]
        if lines:
            raise Unconverted([*lines, "nothing is written"])

    def told_unread(self, source, faults):
        for fault, start, told in faults[-1:]:
            says, write = told or advice(fault, source.file)
            found = finding_in(source.file, "fault", fault, start, says, write)
            yield from text_of_faults(source.name, [found])

    def rewrite(self):
        """The text of each statement as it is written."""
        good = [item for item in self.all if is_object(item.value)]
        versions = self.versions = Versions(good, self.live, self.words.declaration)
        for item in self.all:
            node = item.node
            if is_object(item.value):
                Editor(item, versions, self.words.widen).edit()
            if is_old(item.value):
                rewriting = Rewriting(versions, item, item.edits)
                item.told = rewriting.text()
                item.change("Version", node, (), f"BODS 0.3 or older to 0.4: {'; '.join(rewriting.done)}")
                item.needs = [versions.old[name] for name in replaced_by(item.value) if name in versions.old]
            else:
                item.told = item.edits.text(node.start, node.end)
            is_same = not item.edits.all and not is_old(item.value)
            item.became = item.value if is_same else json.loads(item.told)
        # (an older statement's turn is told by the one that it replaces)
        set_turns([item for item in self.all if not is_old(item.value)])

    def is_there(self, item):
        """Whether the register has this very statement; its item is left out then."""
        other = self.live.statements.get(text(member(item.became, "statementId"))) if self.live else None
        if other is None or what_is_read(other) != what_is_read(item.became):
            return False
        self.left_out[id(item)] = item
        return True

    # ---- what would be refused

    def judge(self):
        """The faults that are left, each at its place in the source."""
        records, faulty = self.live.copy() if self.live else Records(), set()
        for source in self.sources:
            source.file.records, source.file.is_against, source.file.assumed = records, self.live is not None, self.versions.assumed
        for group in self.groups:
            for item in group:
                found = [self.found(item, fault) for fault in statement_faults(item.became, 1) if not follows(item, fault)]
                faulty |= {id(item)} if found else set()
                self.findings += found
                self.findings += [self.too_large(item)] if len(item.told.encode()) > FILE_LIMIT - BESIDE else []
            for item in group:
                # (a record whose first statement is faulty isn't there, which needs no fault of its own)
                is_known = any(id(it) in faulty for it in item.needs)
                found = [it for it in record_faults([item.became], records, where=item.where()) if not (is_known and it.name == "RecordUnknown")]
                self.findings += [self.found(item, fault) for fault in found]
        if self.findings:
            raise Unconverted(self.lines(self.findings))

    def found(self, item, fault):
        """A finding about the source of a fault of what it became."""
        path = fault.path[1:]
        if is_old(item.value):
            path = path[1:] if path[:1] == ("recordDetails",) else tuple(OLD_NAMES.get(it, it) for it in path)
        source = Fault(fault.name, fault.field, item.place, (item.place - 1, *path), fault.last)
        file = item.source.file
        says, write = advice(source, file)
        start = file.node(source.path).start
        return item.source.name, finding_in(file, "fault", source, start, says, write)

    def too_large(self, item):
        fault = Fault("BodyTooLarge", None, item.place, (item.place - 1,))
        says = f"the statement alone has {len(item.told.encode()):,} bytes, and a file has {FILE_LIMIT:,} at most"
        return item.source.name, finding_in(item.source.file, "fault", fault, item.node.start, says, "a shorter statement")

    def unclear(self, fault):
        item = fault.item
        source = Fault(fault.name, None, item.place, (item.place - 1,))
        return item.source.name, finding_in(item.source.file, "fault", source, item.node.start, fault.says, fault.write)

    def lines(self, findings):
        lines = [line for name, found in findings for line in text_of_faults(name, [found])]
        fractions = sum(found.name == "Fraction" for _, found in findings)
        lines += [f"--widen makes a whole range of each share with a fraction: {fractions:,}"] if fractions else []
        return [*lines, f"{len(findings):,} fault{'s' * (len(findings) != 1)}: nothing is written"]

    # ---- files

    def whole_file(self, group):
        """The one source whose list the group is, as it stands there and complete, or None."""
        sources = {id(item.source): item.source for item in group}
        source = next(iter(sources.values()), None)
        is_whole_list = len(sources) == 1 and source.file.shape == "array" and len(source.items) == len(group)
        return source if is_whole_list else None

    def prove_read(self):
        """Reads what is to be written once more, by its bytes."""
        records = self.live.copy() if self.live else Records()
        for part in (it for parts in self.parts for it in parts):
            value = json.loads(part.data)
            fault = next(file_faults(value), None) or next(record_faults(value, records), None)
            if fault or value != [item.became for item in part.items]:
                raise Unconverted([f"a file that was made would be refused ({fault and fault.line()}): this is a fault of tools/bods", "nothing is written"])

    def write(self, names):
        """Writes the files and the reports, and gives the lines that tell of them."""
        return Written(self, names).lines()


def follows(item, fault):
    """Whether a fault comes of another alone: an older statement without an identifier that is a text has no record by it."""
    is_nameless = is_old(item.value) and text(item.value.get("statementID")) is None
    return is_nameless and fault.name == "Missing" and fault.field in ("declarationSubject", "recordId")


def what_is_read(value):
    """What of a statement tells whether it is the same one again: its record, its date, and its details."""
    if not is_object(value):
        return None
    names = [value.get(name) for name in ("declarationSubject", "recordId", "recordType", "recordDetails")]
    return [*names, day_of(value.get("statementDate")), value.get("recordStatus") == "closed"]
