"""Each allocation refused in turn, while lists of requests are asked, a file is checked, a report is made, and tables are moved.

A stand-in for the allocator (`lib/standin.c`) refuses the Nth allocation of a run, for N from a first one on,
until a run meets no refusal. Such a run ends in `out of memory` with nothing changed, or one of its requests at
most is answered 503. Everything else is as in a run without that request: the other replies, by a second answer
(`lib/register.py`), and the register, by what a later run tells of it and by its tables.
"""
import itertools
import subprocess
import tempfile
from collections import Counter
from concurrent.futures import ThreadPoolExecutor
from os import cpu_count
from pathlib import Path

from lib.check_migration import DATED, dumped, made
from lib.checking import DB, EVIDENCED, REPORT, Mismatch, is_so
from lib.notation import ROWS
from lib.program import REGISTER, TOP, Server
from lib.replies import exit_status, replies_in
from lib.standins import ENROLMENTS, NOT_RUN, PROBES, built, cleared, compared, ended_as, requests_of, stood_in, stored
from lib.standins import wanted

# In the gate, each of so many allocations is refused: opening a file alone takes thousands.
STEPS = {"memory": 10, "file": 149}
START = "start.db"
UNAVAILABLE = (ROWS / "unavailable.reply").read_bytes()
OUT_OF_MEMORY = (3, b"", b"bor: out of memory\n")
FIRST = "alder lodge f1 2024-02-01 FIRST"
# A file, and what a check of it prints.
CHECKED = (TOP / "examples" / "first-lodging.json").read_bytes()
CHECK = b"filing 1 published\n1\tentity\tnew\tc1\te1\n2\tperson\tnew\tc1\tp1\n3\trelationship\tnew\tc1\tr1\n"
NO_TOKEN = r"raw GET /filings HTTP/1.1\r\n\r\n"
CHUNKED = r"raw GET /filings HTTP/1.1\r\nTransfer-Encoding: chunked\r\n\r\n"

# Asks in words; what no agent asks for stands with its reply.
LISTS = {
    "first lodging": [FIRST, "alder chains alder c1 e1", "alder evidence alder c1 e1", "alder file f1"],
    "repeat and reuse": [
        FIRST,
        FIRST,
        "alder lodge f1 2024-02-01 []",
        "alder lodge f1 2024-02-02 FIRST",
        "alder filings",
    ],
    "snapshots by date": [
        "alder lodge f1 2024-02-01 E s1 e1; E s2 e1 @2024-01-12 +closed",
        *(f"alder snapshot alder c1 2024-01-{day}" for day in ("11", "09", "12", "13")),
        *(f"alder chains alder c1 e1 2024-01-{day}" for day in ("09", "12", "13")),
    ],
    "draft joins across agents": [
        "birch lodge x3 2024-02-01 E s1 b1 #GB-COH/00000001; P s2 bp; R s3 br b1<-bp V100 in c9",
        "alder lodge g1 2024-03-01 E s1 e1; E s2 a1 #GB-COH/00000001; R s3 r1 e1<-a1 S10",
        "alder chains alder c1 e1",
        "birch chains alder c1 e1",
        "alder evidence alder c1 e1",
        "alder entities GB-COH 00000001",
        "birch entities GB-COH 00000001",
        "registrar day 2024-03-01",
        "birch chains alder c1 e1",
        "birch entities GB-COH 00000001",
    ],
    "withdrawals in order": [
        "alder lodge k1 2024-03-01 E s1 e1",
        "alder lodge k2 2024-03-01 E s2 e1",
        *(f"alder withdraw k{number}" for number in (1, 2, 1, 2)),
        "alder lodge k3 2024-02-01 E s1 e1",
        "alder withdraw k3",
        "alder lodge k2 2024-03-01 E s2 e1",
        "alder file k1",
        "alder withdraw k9",
        "alder file k9",
    ],
    "requests refused": [
        ("raw", "400 CutShort"),
        (r"raw GET /nothing HTTP/1.1\r\n\r\n", "404 NoPath"),
        ("alder GET /filings/", "404 NoPath"),
        ("alder POST /filings", "405 WrongMethod Allow: GET"),
        (NO_TOKEN, "401 NoToken"),
        ("alder PUT /filings/f1", "400 BadQuery(due)"),
        ("alder PUT /filings/f%31?due=2024-02-01", "400 BadQuery(key)"),
        (CHUNKED, "400 BadLength"),
        "alder lodge f1 2024-01-31 FIRST",
        "registrar day 2024-01-31",
        "registrar day 2024-02-01",
        "registrar enrol alder cedar-token-000001",
        "registrar enrol cedar alder-token-000001",
        "registrar enrol cedar cedar-token-000001",
        "registrar renew cedar alder-token-000001",
        "registrar renew cedar cedar-token-000002",
        "registrar register",
    ],
}


# ---- what a list is answered and leaves


class Answers:
    """What a list of asks is answered behind those that made the register, and what it leaves."""

    def __init__(self, before, asks):
        self.before, self.asks, self.kept = before, asks, {}

    def others(self, place):
        """The list without the ask at the place."""
        return [ask for at, ask in enumerate(self.asks) if at != place]

    def told(self, asks):
        """The replies to the asks, and those to the probes behind them."""
        key = repr(asks)
        if key not in self.kept:
            replies = wanted([*self.before, *asks, *PROBES])[len(self.before) :]
            self.kept[key] = replies[: len(asks)], replies[len(asks) :]
        return self.kept[key]


def judged(ran, way):
    """How the run ended, and the asks that it answered; a `Mismatch` where it may not end so."""
    answers = way.answers
    if (ran.status, ran.output, ran.errors) == OUT_OF_MEMORY:
        return "out of memory", []
    replies = replies_in(ran.output)
    places = [at for at, reply in enumerate(replies) if reply == UNAVAILABLE]
    is_so(len(places) <= 1, f"the replies {places} are 503")
    answered = answers.others(places[0]) if places else answers.asks
    told = list(answers.told(answered)[0])
    if places:
        told.insert(places[0], UNAVAILABLE)
    compared(answers.asks, told, replies)
    status = max(way.status_of(int(reply[9:12])) for reply in told)
    is_so((ran.status, ran.errors) == (status, b""), f"wanted status {status}, had {ran.told()}")
    return "one 503" if places else "the same", answered


# ---- ways to ask a list


class OverMemory:
    """A register in memory; the probes stand behind the list."""

    name, kept_in, is_opening_tried = "over memory", "memory", True

    def __init__(self, bor, folder, asks):
        asks = [*ENROLMENTS, *asks, *PROBES]
        self.bor, self.folder, self.answers = bor, folder, Answers([], asks)
        self.words = ["exchange", *REGISTER, *stored(folder, asks)]

    def status_of(self, status):
        return exit_status(status)

    def run(self, bor):
        return bor.run(self.words, self.folder)

    def look(self, answered):
        """The replies have told all."""


class OverFile:
    """A register in a file, with the agents or none to start with; a run of its own asks the probes."""

    name, kept_in = "over a file", "file"

    def __init__(self, bor, folder, asks, starts_empty=False, is_opening_tried=False):
        self.bor, self.folder, self.tables, self.is_opening_tried = bor, folder, {}, is_opening_tried
        self.answers = Answers([], [*ENROLMENTS, *asks]) if starts_empty else Answers(ENROLMENTS, asks)
        self.names = stored(folder, self.answers.asks)
        self.probes = stored(folder, PROBES, "probe")
        self.start = None
        if not starts_empty:
            is_so(bor.exchange(requests_of(ENROLMENTS), folder, START).status == 0, "no agents are enrolled")
            self.start = Path(folder, START)

    def status_of(self, status):
        return exit_status(status)

    def exchange(self, bor, names):
        return bor.run(["exchange", "--db", DB, *REGISTER, *names], self.folder)

    def run(self, bor):
        cleared(self.folder, DB, self.start)
        return self.exchange(bor, self.names)

    def look(self, answered):
        """The file shows the register of the asks that were answered, and has its tables."""
        if not answered and is_untouched(self.folder, self.start):
            return
        ran = self.exchange(self.bor, self.probes)
        compared(PROBES, self.answers.told(answered)[1], replies_in(ran.output))
        tables = dumped(self.folder)
        is_so(tables == self.tables_after(answered), "the file has other tables than one without that request")

    def tables_after(self, answered):
        """The tables that these asks leave with ample memory."""
        key = repr(answered)
        if key not in self.tables:
            cleared(self.folder, DB, self.start)
            names = [self.names[self.answers.asks.index(ask)] for ask in answered]
            # Without a request too, the run sets a register up.
            self.exchange(self.bor, names or self.probes)
            self.tables[key] = dumped(self.folder)
        return self.tables[key]


class OnSocket(OverFile):
    """A register in a file that is served, which goes on behind what it couldn't answer."""

    name = "on a socket"

    def status_of(self, status):
        """A refusal is no failure of a server."""
        return 3 if status == 503 else 0

    def run(self, bor):
        cleared(self.folder, DB, self.start)
        for _ in range(3):
            server = Server(bor, self.folder, DB, len(self.names))
            if server.is_listening():
                return self.served(server)
            ran = ended_as(server, b"")
            if ran.errors != b"bor: cannot listen\n":
                break
        return ran

    def served(self, server):
        replies = []
        for name in self.names:
            try:
                replies.append(server.ask(Path(self.folder, name).read_bytes(), ends=True))
            except OSError as fault:
                server.stop()
                raise Mismatch(f"reply {len(replies)}: {type(fault).__name__}: {fault}") from fault
        return ended_as(server, b"".join(replies))


def is_untouched(folder, start):
    """Whether the register's file is byte for byte the one to start with, and no log is beside it."""
    log = Path(folder, f"{DB}-wal")
    has_log = log.exists() and log.stat().st_size > 0
    return bool(start) and not has_log and Path(folder, DB).read_bytes() == start.read_bytes()


class Command:
    """A command on a file, which writes a fixed text or is out of memory, and the tables that both leave."""

    kept_in, is_opening_tried = "file", True

    def __init__(self, bor, folder, words, text, changed):
        self.folder, self.words, self.text, self.start = folder, words, text, Path(folder, START)
        self.before, self.changed = dumped(folder, START), changed

    def run(self, bor):
        cleared(self.folder, DB, self.start)
        return bor.run(self.words, self.folder)

    def judged(self, ran):
        told = (ran.status, ran.output, ran.errors)
        is_so(told in (OUT_OF_MEMORY, (0, self.text, b"")), f"wanted {self.text!r}, had {ran.told()}")
        wanted_tables = self.before if told == OUT_OF_MEMORY else self.changed
        if wanted_tables != self.before or not is_untouched(self.folder, self.start):
            is_so(dumped(self.folder) == wanted_tables, "the file has other tables")
        return "out of memory" if told == OUT_OF_MEMORY else "the same"


class Checked(Command):
    """A check of a file, which prints its statements or is out of memory."""

    kept_in = "memory"

    def __init__(self, folder):
        self.folder = folder

    def run(self, bor):
        return bor.run(["check"], self.folder, CHECKED)

    def judged(self, ran):
        is_out = (ran.status, ran.output, ran.errors) == OUT_OF_MEMORY
        is_so(is_out or (ran.status, ran.output, ran.errors) == (0, CHECK, b""), f"wanted {CHECK!r}, had {ran.told()}")
        return "out of memory" if is_out else "the same"


def report_made(bor, folder, *more, text=REPORT):
    is_so(bor.exchange(requests_of([*ENROLMENTS, FIRST]), folder, START).status == 0, "nothing is lodged")
    words = ["--viewer", "alder", "--agent", "alder", "--declaration", "c1", "--record", "e1"]
    return Command(bor, folder, ["report", "--db", DB, *words, *more], text.encode(), dumped(folder, START))


def evidence_made(bor, folder):
    return report_made(bor, folder, "--evidence", text=EVIDENCED)


def tables_moved(bor, folder):
    made(folder, DATED, START)
    made(folder, DATED)
    is_so(bor.run(["migrate", "--db", DB], folder).status == 0, "the tables are not moved")
    return Command(bor, folder, ["migrate", "--db", DB], b"version 2\n", dumped(folder))


# ---- numbers


def attempt(bor, library, way, number, plant):
    """How the run ended whose allocation of this number was refused; none where it has fewer."""
    stood, mark = stood_in(bor, library, way.folder, "STANDIN_REFUSE", number)
    ran = way.run(stood)
    met = mark.exists()
    if plant and met:
        ran = plant(way, ran)
    if isinstance(way, Command):
        kind = way.judged(ran)
    else:
        kind, answered = judged(ran, way)
        way.look(answered)
    is_so(met or kind == "the same", f"nothing was refused, and it ended so: {kind}")
    return kind if met else None


def first_behind_opening(bor, library, way):
    """The last number of an allocation behind which a run that it is refused is no more out of memory."""
    low, high = 1, 2
    while attempt(bor, library, way, high, None) == "out of memory":
        low, high = high, 2 * high
    while high - low > 1:
        middle = (low + high) // 2
        if attempt(bor, library, way, middle, None) == "out of memory":
            low = middle
        else:
            high = middle
    return low


def counted(bor, library, way, step, first, plant=None):
    """How many runs ended how, for each number from the first one on, by the step."""
    ends, number = Counter(), None
    try:
        start = first if way.is_opening_tried else first - 1 + first_behind_opening(bor, library, way)
        for number in itertools.count(start, step):
            kind = attempt(bor, library, way, number, plant)
            if kind is None:
                return ends
            ends[kind] += 1
    except Mismatch as found:
        raise Mismatch(f"allocation {number}: {found}") from found


def ways(bor):
    """Names, and what makes the way of each in a folder. Opening is tried with the first list alone."""
    for name, asks in LISTS.items():
        is_first = name == "first lodging"
        yield f"{name} over memory", lambda folder, asks=asks: OverMemory(bor, folder, asks)
        yield f"{name} over a file", lambda folder, asks=asks, one=is_first: OverFile(bor, folder, asks, one, one)
        yield f"{name} on a socket", lambda folder, asks=asks, one=is_first: OnSocket(bor, folder, asks, False, one)
    yield "a check of a file", Checked
    yield "a report", lambda folder: report_made(bor, folder)
    yield "a report with its evidence", lambda folder: evidence_made(bor, folder)
    yield "tables moved", lambda folder: tables_moved(bor, folder)


# Of the lists on a socket, the gate has this one.
SERVED = "draft joins across agents on a socket"


def outcome(bor, library, make, steps, place):
    """The fault that was found, if any, and how many runs ended how."""
    with tempfile.TemporaryDirectory(prefix="bor-memory-") as folder:
        try:
            way = make(folder)
            # Each way begins at a number of its own, since the first allocations of all are the same.
            step = steps[way.kept_in]
            ends = counted(bor, library, way, step, 1 + 7 * place % step)
        except Mismatch as found:
            return str(found), None
        except (OSError, subprocess.SubprocessError) as fault:
            return f"{type(fault).__name__}: {fault}", None
    return None if ends else "the stand-in met no allocation", ends


def tried(bor, steps, is_tried=lambda name: True):
    """The name of each way, what was found, and how many runs ended how; that none was run where there is no `cc`."""
    with tempfile.TemporaryDirectory(prefix="bor-standin-") as folder, ThreadPoolExecutor(cpu_count()) as pool:
        library = built(folder)
        if not library:
            yield "refused memory", NOT_RUN, None
            return
        listed = [(name, make) for name, make in ways(bor) if is_tried(name)]
        one = lambda place: outcome(bor, library, listed[place][1], steps, place)
        for (name, _), (fault, ends) in zip(listed, pool.map(one, range(len(listed)))):
            yield f"refused memory, {name}", fault, ends


def whole(bor, step):
    """How each way came out with each such allocation."""
    return tried(bor, {"memory": step, "file": step})


def asked(bor):
    """How each way of the gate came out."""
    for name, fault, _ in tried(bor, STEPS, lambda name: name == SERVED or not name.endswith("on a socket")):
        yield name, fault
