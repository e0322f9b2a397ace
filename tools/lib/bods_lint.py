"""Everything that is wrong in a file, in the register's order, and then what is taken and won't count."""
from dataclasses import dataclass

from bods_advice import advice
from bods_file import CONVERTS, File
from bods_json import pointer, written
from bods_rules import BOUNDS, Fault, Records, file_faults, member, record_faults, text
from bods_warnings import due_warnings, warnings_of


@dataclass
class Finding:
    """A fault or a warning at a place of the source."""

    kind: str
    name: str
    field: str
    place: int
    line: int
    column: int
    pointer: str
    statement: str
    record: str
    interest: int
    interest_type: str
    says: str
    write: str

    def head(self):
        """The name with the place and the field, as `bor check` tells a refusal."""
        told = f"{self.name} at {self.place}" if self.place else self.name
        return f"{told} in {self.field}" if self.field else told


class Lint:
    """What was found in a file: faults in the register's order, and warnings in the file's.

    `live` has the agent's live statements where a register was asked, and `today` its day.
    """

    def __init__(self, data, live=None, today=None):
        self.file = File(data)
        self.file.is_against, self.file.records = live is not None, live.copy() if live else Records()
        self.faults = [self.unread(*it) for it in self.file.faults]
        self.warnings = []
        if self.file.value is not None:
            value = self.file.value
            self.faults += [self.refused(it) for it in file_faults(value)]
            self.faults += [self.refused(it) for it in record_faults(value, self.file.records)]
            self.warnings += [self.warned(it) for it in warnings_of(value, live)]
            self.warnings += [self.warned(it) for it in due_warnings(value, live, today)] if live else []
        self.warnings += [self.repeated(*it) for it in self.file.reader.repeats]

    def refusal(self):
        """The first fault as `bor check` prints it, or None."""
        return self.faults[0].head() if self.faults else None

    # ---- findings

    def unread(self, fault, start, told):
        return finding_in(self.file, "fault", fault, start, *(told or advice(fault, self.file)))

    def refused(self, fault):
        return finding_in(self.file, "fault", fault, self.file.node(fault.path).start, *advice(fault, self.file))

    def warned(self, it):
        fault = Fault(it.name, None, it.place, it.path)
        return finding_in(self.file, "warning", fault, self.file.node(it.path).start, it.says, it.write)

    def repeated(self, start, name):
        says = f"{written(name)} stands twice in its object: the last one counts"
        return finding_in(self.file, "warning", Fault("MemberTwice"), start, says, f"one {written(name)}")


def finding_in(file, kind, fault, start, says, write):
    """A fault or a warning with its place in the file's text."""
    line, column = file.place_of(start)
    place, path = fault.place, fault.path
    statement = file.nodes[place - 1].value if place else None
    at = path.index("interests") + 1 if "interests" in path else 0
    number = path[at] + 1 if 0 < at < len(path) else None
    interest = file.at(path[: at + 1]) if number else None
    names = text(member(statement, "statementId")) or text(member(statement, "statementID")), text(member(statement, "recordId"))
    told = pointer((*file.prefix, *path)) if file.shape != "single" else pointer(path[1:])
    kind_of_interest = text(member(interest, "type"))
    return Finding(kind, fault.name, fault.field, place, line, column, told, *names, number, kind_of_interest, says, write)


# ---- texts


def plain(text):
    """A text without letters that a terminal would act on."""
    return "".join(it if it.isprintable() else f"\\u{ord(it):04x}" for it in text)


def subject_line(finding):
    """Which statement and which interest it is about."""
    if not finding.place:
        return None
    told = f"statement {finding.place}"
    told += f" {written(finding.statement)}" if finding.statement is not None else ""
    told += f" of record {written(finding.record)}" if finding.record is not None else ""
    if finding.interest:
        told += f", interest {finding.interest}"
        told += f" ({finding.interest_type})" if finding.interest_type else ""
    return told


def told_lines(name, finding, is_known=False):
    """The lines that tell a finding; of one that says what was said before, the first alone."""
    kind = "" if finding.kind == "fault" else "warning "
    yield f"{name}:{finding.line}:{finding.column}: {kind}{finding.head()}" + (f" {finding.pointer}" if finding.pointer else "")
    if is_known:
        return
    subject = subject_line(finding)
    yield f"  {subject}: {finding.says}" if subject else f"  {finding.says}"
    if finding.write:
        yield f"  write {finding.write}"


def text_of_faults(name, findings):
    return [line for finding in findings for line in told_lines(name, finding)]


def counted(count, word):
    return f"{count:,} {word}{'' if count == 1 else 's'}"


def text_lines(name, lint):
    """The whole text: the refusal, the faults, the warnings, and how many they are."""
    if lint.refusal():
        yield f"refused {lint.refusal()}"
    known = set()
    for finding in [*lint.faults, *lint.warnings]:
        # (each statement of an older file lacks the same members)
        key = (finding.says, finding.write) if finding.name == "Missing" and CONVERTS in finding.write else None
        yield from told_lines(name, finding, key in known)
        known |= {key} if key else set()
    mended = [sum(has_mended(it) for it in lint.faults) for has_mended in (is_mended, is_widened)]
    told = [f"{mended[0]:,} of the faults"] if mended[0] else []
    told += [f"{mended[1]:,}{' more' if told else ' of the faults'} with --widen"] if mended[1] else []
    if told:
        yield f"`tools/bods convert` mends {', and '.join(told)}"
    statements = f"{counted(len(lint.file.nodes), 'statement')}, " if lint.file.shape else ""
    yield f"{statements}{counted(len(lint.faults), 'fault')}, {counted(len(lint.warnings), 'warning')}"


def is_mended(finding):
    """Whether `tools/bods convert` mends a fault without being asked for more."""
    is_number = finding.name == "Fraction" or finding.name == "Bad" and finding.field in BOUNDS
    return CONVERTS in (finding.write or "") or is_number and (finding.write or "").startswith('"') and not is_widened(finding)


def is_widened(finding):
    return (finding.write or "").startswith('"share":')


JSON_NAMES = {"statement": "statementId", "record": "recordId", "interest_type": "interestType"}


def json_of(name, lint):
    """The same for machines."""
    def told(finding):
        return {JSON_NAMES.get(key, key): value for key, value in vars(finding).items() if key != "kind"}

    return {
        "file": name,
        "statements": len(lint.file.nodes) if lint.file.shape else None,
        "refused": lint.refusal(),
        "faults": [told(it) for it in lint.faults],
        "warnings": [told(it) for it in lint.warnings],
    }
