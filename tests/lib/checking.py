"""Checks of the program: each has a folder of its own, and says by a `Mismatch` what isn't as wanted."""
import sqlite3
import subprocess
import tempfile
from contextlib import closing
from pathlib import Path

from lib.notation import request_of
from lib.replies import exit_status, replies_in, reply_of
from lib.scripts import NotRun, apart, shown

DB = "register.db"
DAY = "2024-02-01"
ENROLMENT = "registrar enrol alder alder-token-000001"
LODGING = "alder lodge f1 2024-02-01 FIRST"
ENROLLED = (ENROLMENT, '201 {"agent":"alder"}')
LODGED = (LODGING, "201 F(1, published, 2024-02-01)")
REPORT = "entity\talder\tc1\te1\t2024-02-01\nperson\talder\tc1\tp1\t1\t\"Ann Moss\"\npersons 1\n"
# The same with the links of its chains.
EVIDENCED = REPORT.replace("\npersons", "\talder\tc1\tr1\nlink\talder\tc1\tr1\tlast\npersons")
CHECKS = []


class Mismatch(Exception):
    """What is not as wanted."""


def check(function):
    """Has the function checked; its first line says what it checks."""
    CHECKS.append(function)
    return function


def outcome(group, bor, function):
    """How a check came out, in an empty folder of its own."""
    name = f"{group}, {function.__doc__}"
    with tempfile.TemporaryDirectory(prefix=f"bor-{group}-") as folder:
        try:
            function(bor, folder)
        except Mismatch as found:
            return name, found.args[0] if isinstance(found.args[0], NotRun) else str(found)
        except (OSError, subprocess.SubprocessError, sqlite3.Error) as fault:
            return name, f"{type(fault).__name__}: {fault}"
    return name, None


def not_run(why):
    """Ends the check: it can't be done here."""
    raise Mismatch(NotRun(f"not run: {why}"))


def is_so(holds, text):
    if not holds:
        raise Mismatch(text)


def ended(ran, status, output="", errors=""):
    """The run ended with this status, and wrote this and no more."""
    wanted = (status, output.encode(), errors.encode())
    told = (ran.status, ran.output, ran.errors)
    is_so(told == wanted, f"wanted status {status}, output {output!r:.300}, errors {errors!r:.300}, had {ran.told()}")


def failed(ran, line):
    """The run failed, told this line and wrote nothing."""
    ended(ran, 3, "", f"bor: {line}\n")


def replied(ran, rows, errors=""):
    """The run wrote the replies that stand beside the asks, and ended with their greatest status."""
    replies, greatest = replies_in(ran.output), 3 if errors else 0
    for place, (ask, wanted) in enumerate(rows):
        status, reply = reply_of(wanted, ask, DAY)
        told = replies[place] if place < len(replies) else b"nothing"
        is_so(told == reply, f"{ask:.100}: {apart(reply, told)}, {shown(ran.errors)}")
        greatest = max(greatest, exit_status(status))
    is_so(len(replies) == len(rows), f"{len(replies)} replies to {len(rows)} requests")
    is_so((ran.status, ran.errors) == (greatest, errors.encode()), f"wanted status {greatest}, had {ran.told()}")


# ---- registers


def exchange(bor, folder, rows, db=DB):
    """Asks in words over the register's file, and compares the replies that stand beside them."""
    ran = bor.exchange([request_of(ask) for ask, _ in rows], folder, db)
    replied(ran, rows)
    return ran


def begun(bor, folder, *rows, db=DB):
    """A register in a file with alder, in which these rows have been asked."""
    exchange(bor, folder, [ENROLLED, *rows], db)


def report_words(db, record="e1", viewer="alder"):
    return ["report", "--db", db, "--viewer", viewer, "--agent", "alder", "--declaration", "c1", "--record", record]


def report(bor, folder, record="e1", db=DB, viewer="alder"):
    return bor.run(report_words(db, record, viewer), folder)


def write(folder, name, data):
    Path(folder, name).write_bytes(data)
    return name


# ---- tables, by Python's own SQLite


def changed(folder, text, db=DB):
    """Runs the SQL on the file."""
    with closing(sqlite3.connect(Path(folder, db))) as store:
        store.executescript(text)
        store.commit()


def rows_of(folder, query, db=DB):
    with closing(sqlite3.connect(Path(folder, db))) as store:
        return store.execute(query).fetchall()
