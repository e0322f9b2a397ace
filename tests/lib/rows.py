"""Reading the rows of `tests/rows`."""
import re
import shlex
from dataclasses import dataclass, field

from lib.notation import ROWS, Unread, expanded, file_of, numbered, request_of
from lib.replies import reply_of

DAY = "2024-02-01"
AGENTS = ["registrar enrol alder alder-token-000001", "registrar enrol birch birch-token-000001"]


@dataclass
class Exchange:
    """A request, and the reply that it is to have."""

    ask: str
    request: bytes
    status: int
    reply: bytes


@dataclass
class Run:
    """A run of the program, and what it is to end as."""

    words: list
    stdin: bytes
    status: int = 0
    output: list = field(default_factory=list)
    errors: list = field(default_factory=list)
    named_in_errors: list = field(default_factory=list)


@dataclass
class Row:
    """What is asked one after the other of a new register with the agents alder and birch."""

    name: str
    steps: list

    def exchanges(self):
        return [step for step in self.steps if isinstance(step, Exchange)]

    def runs(self):
        return [step for step in self.steps if isinstance(step, Run)]


def enrolments():
    """The exchanges that each register begins with."""
    return [exchange(ask, f'201 {{"agent":"{ask.split()[2]}"}}', DAY) for ask in AGENTS]


# ---- one step


def exchange(ask, wanted, today):
    status, reply = reply_of(wanted, ask, today)
    return Exchange(ask, request_of(ask), status, reply)


def run(line, told):
    words, _, stdin = line.partition(" < ")
    step = Run(shlex.split(words)[1:], file_of(stdin) if stdin else b"")
    step.status = int(told[0])
    for text in told[1:]:
        stream, _, text = text.partition(" ")
        lists = {"out": step.output, "err": step.errors, "err~": step.named_in_errors}
        if stream not in lists:
            raise Unread(f"no stream: {stream}")
        lists[stream].append(text.replace("|", "\t") if stream == "out" else text)
    return step


def numbers_of(line):
    """The line without its numbers, and the line for each of them: `[i 1..999] alder withdraw k$i`."""
    found = re.match(r"\[([a-z]) (\d+)\.\.(\d+)\] ", line)
    if not found:
        return line, None, [None]
    return line[found.end() :], found[1], range(int(found[2]), int(found[3]) + 1)


def steps_of(line, told, days):
    line, name, numbers = numbers_of(line)
    for number in numbers:
        ask, wanted = (line, told) if name is None else (
            numbered(line, name, number),
            [numbered(text, name, number) for text in told],
        )
        ask, wanted = expanded(ask), [expanded(text) for text in wanted]
        if ask.startswith("bor"):
            yield run(ask, wanted)
            continue
        if len(wanted) != 1:
            raise Unread("a request has one reply")
        step = exchange(ask, wanted[0], days[-1])
        if ask.startswith("registrar day ") and step.status == 200:
            days.append(ask.split()[2])
        yield step


# ---- one row


def blocks_of(lines):
    """Each line that asks, with the lines below it that are set in."""
    blocks = []
    for line in lines:
        if not line.startswith("  "):
            blocks.append((line, []))
        elif not blocks:
            raise Unread(f"nothing is asked before {line}")
        else:
            blocks[-1][1].append(line.strip(" "))
    return blocks


def filled(text, values):
    for name, value in values.items():
        text = text.replace(f"${name}", value)
    return text


def row_of(name, blocks, all_values):
    steps, days = [], [DAY]
    for values in all_values:
        for line, told in blocks:
            steps += steps_of(filled(line, values), [filled(text, values) for text in told], days)
    if not steps:
        raise Unread("nothing is asked")
    return Row(name, steps)


def values_of(line):
    return [value.strip() for value in re.split(r"(?<= )\|(?= )", f" {line} ")]


def rows_of(name, lines):
    """The rows of the lines below a name: one, or one for each line of a table `each`."""
    blocks = blocks_of(lines)
    tables = [block for block in blocks if re.match(r"(each|all) ", block[0])]
    blocks = [block for block in blocks if block not in tables]
    if not tables:
        return [row_of(name, blocks, [{}])]
    (head, lines), = tables
    how, *names = head.split()
    table = [dict(zip(names, values_of(line), strict=True)) for line in lines]
    if not table:
        raise Unread("no line of values stands below their names")
    if how == "all":
        return [row_of(name, blocks, table)]
    return [row_of(f"{name}: {next(iter(values.values()))}", blocks, [values]) for values in table]


def read(path):
    """The rows of a file."""
    rows, name, lines = [], None, []
    for number, line in enumerate([*path.read_text(encoding="utf-8").split("\n"), "== "], 1):
        line = line.rstrip()
        if not line.startswith("=="):
            if line and not line.startswith("#"):
                lines.append(line)
            continue
        try:
            if name is not None:
                rows += rows_of(f"{path.stem}, {name}", lines)
        except (Unread, ValueError, IndexError, KeyError) as fault:
            raise SystemExit(f"{path.name}: the row before line {number} can't be read: {fault}")
        if lines and name is None:
            raise SystemExit(f"{path.name}: lines stand before the first row")
        name, lines = line[2:].strip(), []
    return rows


def all_rows():
    return [row for path in sorted(ROWS.glob("*.rows")) for row in read(path)]
