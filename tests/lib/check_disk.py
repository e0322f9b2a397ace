"""A disk that fails at each call in turn, while lists of requests are asked, a report is made, and tables are moved.

A stand-in for the calls that read, change or flush a file (`lib/standin.c`) fails the Nth of them, once or from
there on, for N from a first one on, until a run has fewer. Such a run ends in `store failed`, or answers 503 where
the disk failed and maybe behind that. Every other reply is as in a run of the requests that were not answered 503,
by a second answer (`lib/register.py`). Opened again, the file shows the register of these, or that and the first
change that was answered 503: the disk may have taken what it said that it could not.
"""
import itertools
import tempfile
from collections import Counter
from concurrent.futures import ThreadPoolExecutor
from os import cpu_count

from lib.check_memory import LISTS, UNAVAILABLE, OnSocket, OverFile, evidence_made, report_made, tables_moved
from lib.check_migration import dumped
from lib.checking import Mismatch, is_so
from lib.replies import replies_in
from lib.standins import NOT_RUN, PROBES, built, compared, stood_in

# In the gate, the disk fails at each of so many calls.
STEP = 31
KINDS = {"once": "STANDIN_FAIL", "from there on": "STANDIN_FAILS"}
STORE_FAILED = (3, b"", b"bor: store failed\n")


# ---- lists of requests


class Judged:
    """What a run came to: how it ended, the asks that it answered, and the first that it didn't."""

    def __init__(self, ran, way):
        answers = way.answers
        self.asks, self.replies = answers.asks, replies_in(ran.output)
        self.failed = [at for at, reply in enumerate(self.replies) if reply == UNAVAILABLE]
        if (ran.status, ran.output, ran.errors) == STORE_FAILED:
            self.kind, self.answered = "store failed", []
            return
        self.kind = f"{'one' if len(self.failed) == 1 else 'some'} 503" if self.failed else "the same"
        self.answered = [ask for at, ask in enumerate(self.asks) if at not in self.failed]
        told = list(answers.told(self.answered)[0])
        for at in self.failed:
            told.insert(at, UNAVAILABLE)
        compared(self.asks, told, self.replies)
        status = max(way.status_of(int(reply[9:12])) for reply in told)
        is_so((ran.status, ran.errors) == (status, b""), f"wanted status {status}, had {ran.told()}")

    def registers(self):
        """The asks of which the file may show the register."""
        yield self.answered
        if self.failed:
            yield [ask for at, ask in enumerate(self.asks) if at == self.failed[0] or at not in self.failed]


def shows_one(way, lists):
    """The file shows the register of one of these lists of asks, and has its tables."""
    told, tables = replies_in(way.exchange(way.bor, way.probes).output), dumped(way.folder)
    for asks in lists:
        if told == way.answers.told(asks)[1] and tables == way.tables_after(asks):
            return
    raise Mismatch(f"the file shows the register of neither of {lists}: {told!r:.300}")


def look_at(ran, way):
    """How the run ended; a `Mismatch` where it may not end so."""
    judged = Judged(ran, way)
    shows_one(way, list(judged.registers()))
    return judged.kind


# ---- commands


def look_at_command(ran, way):
    """How the command ended. Tables may be moved where it could not tell so."""
    told = (ran.status, ran.output, ran.errors)
    is_so(told in (STORE_FAILED, (0, way.text, b"")), f"wanted {way.text!r}, had {ran.told()}")
    tables = dumped(way.folder)
    is_done = told != STORE_FAILED
    is_so(tables == way.changed or (not is_done and tables == way.before), "the file has other tables")
    return "the same" if is_done else "store failed"


# ---- numbers


def attempt(bor, library, way, variable, number, plant):
    """How the run ended whose disk failed at the call of this number; none where it has fewer."""
    stood, mark = stood_in(bor, library, way.folder, variable, number)
    ran = way.run(stood)
    met = mark.exists()
    if plant and met:
        ran = plant(way, ran)
    kind = look_at_command(ran, way) if not hasattr(way, "answers") else look_at(ran, way)
    is_so(met or kind == "the same", f"nothing failed, and it ended so: {kind}")
    return kind if met else None


def counted(bor, library, way, variable, step, first, plant=None):
    """How many runs ended how, for each number from the first one on, by the step."""
    ends, number = Counter(), None
    try:
        for number in itertools.count(first, step):
            kind = attempt(bor, library, way, variable, number, plant)
            if kind is None:
                return ends
            ends[kind] += 1
    except Mismatch as found:
        raise Mismatch(f"call {number}: {found}") from found


def ways(bor):
    """Names, and what makes the way of each in a folder. Setting up is tried with the first list alone."""
    for name, asks in LISTS.items():
        is_first = name == "first lodging"
        yield f"{name} over a file", lambda folder, asks=asks, one=is_first: OverFile(bor, folder, asks, one)
        yield f"{name} on a socket", lambda folder, asks=asks: OnSocket(bor, folder, asks)
    yield "a report", lambda folder: report_made(bor, folder)
    yield "a report with its evidence", lambda folder: evidence_made(bor, folder)
    yield "tables moved", lambda folder: tables_moved(bor, folder)


def outcome(bor, library, make, variable, step, place):
    """The fault that was found, if any, and how many runs ended how."""
    with tempfile.TemporaryDirectory(prefix="bor-disk-") as folder:
        try:
            # Each way begins at a number of its own, since the first calls of all are the same.
            ends = counted(bor, library, make(folder), variable, step, 1 + 7 * place % step)
        except Mismatch as found:
            return str(found), None
    return None if ends else "the stand-in met no call", ends


def tried(bor, step, is_tried=lambda name: True):
    """The name of each way, what was found, and how many runs ended how; that none was run where there is no `cc`."""
    with tempfile.TemporaryDirectory(prefix="bor-standin-") as folder, ThreadPoolExecutor(cpu_count()) as pool:
        library = built(folder)
        if not library:
            yield "a disk that fails", NOT_RUN, None
            return
        listed = [
            (f"{name}, {kind}", make, variable)
            for name, make in ways(bor)
            if is_tried(name)
            for kind, variable in KINDS.items()
        ]
        one = lambda place: outcome(bor, library, *listed[place][1:], step, place)
        for (name, *_), (fault, ends) in zip(listed, pool.map(one, range(len(listed)))):
            yield f"a disk that fails, {name}", fault, ends


# Of the lists on a socket, the gate has this one.
SERVED = "withdrawals in order on a socket"


def asked(bor):
    """How each way of the gate came out."""
    for name, fault, _ in tried(bor, STEP, lambda name: name == SERVED or not name.endswith("on a socket")):
        yield name, fault
