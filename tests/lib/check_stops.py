"""A stop at each write, while a register's file is set up, changed, served, opened again and moved.

A stand-in for the calls that change or flush a file (`lib/standin.c`) kills the program before the kth of them,
for k from a first one on, until a run is not stopped; again in the midst of the kth write, after half of its
bytes; and again before the kth of them, where each file is then as it was when it was last flushed, as a machine
that stops may leave it. The next command opens the file. It finds each change that was answered, and of the
others the first ones, each whole: what it tells is what a second answer (`lib/register.py`) tells, and the tables
are those of a run of just these requests. Then all is asked again, and the register is that of a run without a
stop.
"""
import itertools
import random
import signal
import subprocess
import tempfile
import threading
from collections import Counter
from concurrent.futures import ThreadPoolExecutor
from os import cpu_count
from pathlib import Path

from lib.check_migration import DATED, dumped, made
from lib.checking import DAY, DB, Mismatch, is_so, report
from lib.notation import request_of
from lib.program import REGISTER, Server
from lib.register import Register
from lib.replies import replies_in
from lib.standins import ENROLMENTS, NOT_RUN, PROBES, built, cleared, compared, ended_as, requests_of, stood_in, stored
from lib.standins import wanted, wish_of

# In the gate, the program is stopped at each tenth call.
STEP = 10
START = "start.db"
KINDS = {
    "before a call": "STANDIN_STOP",
    "in the midst of a write": "STANDIN_HALF",
    "before a call, and what wasn't flushed is lost": "STANDIN_LOSE",
}
# Each changes the register, and leaves it as it is where it is asked again behind the others.
CHANGES = [
    "alder lodge f1 2024-02-01 FIRST",
    "alder lodge f2 2024-03-01 E s4 e2 #GB-COH/00000001; P s5 p2; R s6 r2 e2<-p2 V60 S10",
    "alder withdraw f2",
    "birch lodge x3 2024-03-01 E s1 b1 #GB-COH/00000001; P s2 bp; R s3 br b1<-bp V100 in c9",
    "registrar day 2024-03-01",
    "registrar enrol cedar cedar-token-000001",
    "registrar renew cedar cedar-token-000002",
    "alder lodge f3 2024-03-01 E s7 e1; E s8 e1 @2024-01-12 +closed",
]
KILLED = -signal.SIGKILL


class Exchanged:
    """The changes, asked by `bor exchange` of a file that has no register yet."""

    name, before = "a register that is set up and changed", []
    # How many changes may be there beside those that were answered.
    others = len(CHANGES) + len(ENROLMENTS)

    def __init__(self, bor, folder):
        self.bor, self.folder, self.start = bor, folder, None
        self.asks = [*ENROLMENTS, *CHANGES][len(self.before) :]
        self.names, self.probes = stored(folder, self.asks), stored(folder, PROBES, "probe")
        self.started()
        self.states = [self.state(count) for count in range(len(self.asks) + 1)]
        tables = [tables for _, tables in self.states]
        is_so(all(one not in tables[:at] for at, one in enumerate(tables)), "two states have equal tables")

    def started(self):
        """Makes the file to start with, where there is one."""

    def exchange(self, bor, names):
        return bor.run(["exchange", "--db", DB, *REGISTER, *names], self.folder)

    def state(self, count):
        """What the probes are answered after so many asks, and the tables that these leave."""
        cleared(self.folder, DB, self.start)
        # Without a request too, the run sets a register up.
        self.exchange(self.bor, self.names[:count] or self.probes)
        return wanted([*self.before, *self.asks[:count], *PROBES])[-len(PROBES) :], dumped(self.folder)

    def run(self, bor):
        """A run on the start's file, and the replies that it gave."""
        cleared(self.folder, DB, self.start)
        return self.exchange(bor, self.names)

    def look(self, ran):
        """The next command opens the file, finds what it has to find, and goes on from there."""
        asks = [*self.before, *self.asks]
        told = replies_in(ran.output)
        compared(self.asks[: len(told)], wanted(asks)[len(self.before) :][: len(told)], told)
        opened = self.exchange(self.bor, self.probes)
        is_so(opened.errors == b"", f"the file is not opened: {opened.told()}")
        state = replies_in(opened.output), dumped(self.folder)
        is_so(state in self.states, f"the register is none of those between: {opened.told()}")
        count = self.states.index(state)
        least, most = len(told), min(len(told) + self.others, len(self.asks))
        is_so(least <= count <= most, f"{count} changes are there where {least} were answered")
        again = wanted([*self.before, *self.asks[:count], *self.asks])[-len(self.asks) :]
        compared(self.asks, again, replies_in(self.exchange(self.bor, self.names).output))
        is_so(dumped(self.folder) == self.states[-1][1], "asked again, it has other tables")
        return count


class Served(Exchanged):
    """The changes, asked of a server of a file with the agents."""

    name, before, others = "a register that is served", ENROLMENTS, 1

    def started(self):
        is_so(self.bor.exchange(requests_of(ENROLMENTS), self.folder, START).status == 0, "no agents are enrolled")
        self.start = Path(self.folder, START)

    def run(self, bor):
        for _ in range(3):
            cleared(self.folder, DB, self.start)
            server = Server(bor, self.folder, DB, len(self.names))
            replies = self.told_by(server) if server.is_listening() else []
            ran = ended_as(server, b"".join(replies))
            if ran.errors != b"bor: cannot listen\n":
                break
        return ran

    def told_by(self, server):
        """The whole replies until the server is gone."""
        replies = []
        for name in self.names:
            reply = reply_of(server, Path(self.folder, name).read_bytes())
            if not reply:
                break
            replies.append(reply)
        return replies


class Reopened(Exchanged):
    """The changes behind the first ones, asked of a file whose log holds those, as a killed server leaves it."""

    name, before, others = "a register that is opened after a stop", [*ENROLMENTS, *CHANGES[:3]], len(CHANGES)

    def started(self):
        is_so(self.bor.exchange(requests_of(ENROLMENTS), self.folder, START).status == 0, "no agents are enrolled")
        server = self.bor.serve(self.folder, START, 9)
        for request in requests_of(CHANGES[:3]):
            server.ask(request)
        server.stop()
        self.start = Path(self.folder, START)


class Moved:
    """The tables of version 1, which are moved by `bor migrate`."""

    name = "tables that are moved"

    def __init__(self, bor, folder):
        self.bor, self.folder, self.start = bor, folder, Path(folder, START)
        made(folder, DATED, START)
        self.first = dumped(folder, START)
        made(folder, DATED)
        is_so(self.migrate(bor) == (0, b"version 2\n", b""), "the tables are not moved")
        self.second = dumped(folder)

    def migrate(self, bor):
        ran = bor.run(["migrate", "--db", DB], self.folder)
        return ran.status, ran.output, ran.errors

    def run(self, bor):
        cleared(self.folder, DB, self.start)
        return bor.run(["migrate", "--db", DB], self.folder)

    def look(self, ran):
        """The next command finds the tables moved or as they were; moved, where that was told."""
        opened = report(self.bor, self.folder)
        tables = dumped(self.folder)
        is_so(tables in (self.first, self.second), "the tables are neither moved nor as they were")
        is_moved = tables == self.second
        is_so(is_moved or not ran.output, f"it told {ran.output!r} of tables that aren't moved")
        line = b"" if is_moved else f"bor: register of version 1 in {DB}\n".encode()
        is_so(opened.errors == line, f"a report ended so: {opened.told()}")
        is_so(self.migrate(self.bor) == (0, b"version 2\n", b""), "the tables are not moved behind the stop")
        is_so(dumped(self.folder) == self.second, "moved again, there are other tables")
        return int(is_moved)


def reply_of(server, request):
    """The reply to a request; none where the server is gone."""
    try:
        return server.ask(request, ends=True)
    except OSError:
        return b""


# ---- numbers


def attempt(bor, library, case, variable, number, plant):
    """How many changes are there after the stop at the call of this number, and whether it was stopped."""
    stood, mark = stood_in(bor, library, case.folder, variable, number)
    ran = case.run(stood)
    met = mark.exists()
    is_so((ran.status == KILLED) == met and ran.errors == b"", f"it ended so: {ran.told()}")
    if plant and met:
        ran = plant(case, ran)
    return case.look(ran), met


def counted(bor, library, case, variable, step, first, plant=None):
    """How many stops left how many changes, for each number from the first one on, by the step."""
    ends = Counter()
    for number in itertools.count(first, step):
        try:
            count, met = attempt(bor, library, case, variable, number, plant)
        except Mismatch as found:
            raise Mismatch(f"call {number}: {found}") from found
        if not met:
            is_so(ends or first > 1, "the stand-in met no call")
            return ends
        ends[count] += 1


# ---- a load that is stopped at random


def load(chance):
    """Asks without end: two agents lodge in turn, a draft of theirs is withdrawn now and then, days pass."""
    for number in itertools.count(1):
        agent, key = ("alder", "birch")[number % 2], f"k{number}"
        due = chance.choice(["2024-02-09", "2024-05-01"])
        file = f"E a{number} e{number % 7}; P b{number} p{number}; R c{number} r{number} e{number % 7}<-p{number} V60"
        yield f"{agent} lodge {key} {due} {file} in c{1 if agent == 'alder' else 9}"
        if number % 5 == 0:
            yield f"{agent} withdraw {key}"
        if number % 20 == 0:
            yield f"registrar day 2024-02-0{min(number // 20, 9)}"


class Load:
    """A server that is killed at random moments, again and again, and the register that it is to have."""

    def __init__(self, bor, folder, seed):
        self.bor, self.folder, self.chance = bor, folder, random.Random(seed)
        self.done, self.asks = list(ENROLMENTS), load(random.Random(f"{seed} asks"))
        self.register = register_of(self.done)
        is_so(bor.exchange(requests_of(ENROLMENTS), folder, DB).status == 0, "no agents are enrolled")

    def round(self):
        """Asks on until the server is gone; then the register has what was answered, and the last ask or not."""
        server = self.bor.serve(self.folder, DB, 100_000)
        is_so(server.is_listening(), f"the server said {server.line!r}")
        left = self.chance.randrange(25)
        for ask in self.asks:
            if left == 0:
                threading.Timer(self.chance.uniform(0, 0.02), server.ran.kill).start()
            left -= 1
            self.done.append(ask)
            wanted_reply = self.register.answer(*wish_of(ask))
            reply = reply_of(server, request_of(ask))
            if not reply:
                break
            compared([ask], [wanted_reply], [reply])
        server.stop()
        return self.found()

    def found(self):
        """Whether the ask in which the server was killed is there; another register is a `Mismatch`."""
        replies = replies_in(self.bor.exchange(requests_of(PROBES), self.folder, DB).output)
        if replies == probed(self.register):
            return "whole"
        ask = self.done.pop()
        self.register = register_of(self.done)
        compared(PROBES, probed(self.register), replies)
        return f"without the {ask.split(' ')[1]}"


def register_of(asks):
    register = Register(DAY)
    for ask in asks:
        register.answer(*wish_of(ask))
    return register


def probed(register):
    return [register.answer(*wish_of(probe)) for probe in PROBES]


def load_stopped(bor, folder, rounds, seed):
    """How often the ask in which the server was killed is there."""
    loaded = Load(bor, folder, seed)
    return Counter(loaded.round() for _ in range(rounds))


# ---- all


def cases(library, step, rounds, seed):
    """Names, and what is tried of each in a folder: each gives how many stops left what."""
    pairs = itertools.product((Exchanged, Served, Reopened, Moved), KINDS.items())
    for at, (case, (name, variable)) in enumerate(pairs):
        first = 1 + at * 3 % step
        yield f"{case.name}, {name}", lambda bor, folder, case=case, variable=variable, first=first: counted(
            bor, library, case(bor, folder), variable, step, first
        )
    yield "a load at random moments", lambda bor, folder: load_stopped(bor, folder, rounds, seed)


def outcome(bor, try_it):
    """The fault that was found, if any, and how many stops left what."""
    with tempfile.TemporaryDirectory(prefix="bor-stops-") as folder:
        try:
            return None, try_it(bor, folder)
        except Mismatch as found:
            return str(found), None
        except (OSError, subprocess.SubprocessError) as fault:
            return f"{type(fault).__name__}: {fault}", None


def tried(bor, step, rounds=8, seed=20240201):
    """The name of each case, what was found, and how many stops left what; that none was run where there is no `cc`."""
    with tempfile.TemporaryDirectory(prefix="bor-standin-") as folder, ThreadPoolExecutor(cpu_count()) as pool:
        library = built(folder)
        if not library:
            yield "stops", NOT_RUN, None
            return
        listed = list(cases(library, step, rounds, seed))
        for (name, _), (fault, ends) in zip(listed, pool.map(lambda one: outcome(bor, one[1]), listed)):
            yield f"stops, {name}", fault, ends


def asked(bor):
    """How each case came out in the gate."""
    for name, fault, _ in tried(bor, STEP):
        yield name, fault
