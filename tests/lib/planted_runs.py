"""Faults that are planted in runs: each has to be found by the checks of refused memory, of a disk that fails or of stops.

A fault is planted behind a run that met a refusal, a failure or a stop: in what the run told, or in the file that it left.
"""
import sqlite3
import tempfile
from contextlib import closing
from pathlib import Path
from types import SimpleNamespace

from lib import check_disk, check_memory, check_stops
from lib.check_memory import LISTS, OUT_OF_MEMORY, UNAVAILABLE, OnSocket, OverFile, OverMemory
from lib.check_stops import Exchanged, Moved, Reopened, Served
from lib.checking import DB, Mismatch
from lib.program import Ended
from lib.replies import replies_in
from lib.standins import built, wanted

# Between the numbers of calls at which a fault is planted.
STEP = 10
# The tables of what a filing says.
PARTS = ("period", "interest", "identifier", "statement")


def told(ran, replies):
    """The run, with other replies."""
    return Ended(SimpleNamespace(returncode=ran.status, stdout=b"".join(replies), stderr=ran.errors))


def refused_at(ran):
    """The replies of a run, and the place of the one that is 503, if there is one."""
    replies = replies_in(ran.output)
    return replies, replies.index(UNAVAILABLE) if UNAVAILABLE in replies else None


def run_sql(way, text):
    with closing(sqlite3.connect(Path(way.folder, DB))) as store:
        store.executescript(text)
        store.commit()


# ---- of refused memory


def a_change_answered_503(way, ran):
    """a change that is answered 503 is made"""
    _, place = refused_at(ran)
    if place is not None:
        way.exchange(way.bor, [way.names[place]])
    return ran


def a_change_in_memory_answered_503(way, ran):
    """a change in memory that is answered 503 is made"""
    _, place = refused_at(ran)
    if place is None:
        return ran
    replies = replies_in(way.run(way.bor).output)
    replies[place] = UNAVAILABLE
    return told(ran, replies)


def a_second_503(way, ran):
    """the request behind one that is answered 503 is answered so too"""
    replies, place = refused_at(ran)
    if place is not None:
        replies[place + 1 : place + 2] = [UNAVAILABLE]
    return told(ran, replies)


def an_answer_lost(way, ran):
    """the reply behind a 503 is lost"""
    replies, place = refused_at(ran)
    if place is not None:
        del replies[place + 1 : place + 2]
    return told(ran, replies)


def a_server_that_ends(way, ran):
    """a server ends at its first 503"""
    replies, place = refused_at(ran)
    return told(ran, replies if place is None else replies[: place + 1])


def out_of_memory_behind_a_change(way, ran):
    """a run whose requests were answered tells that it is out of memory"""
    _, place = refused_at(ran)
    if place is None:
        return ran
    return Ended(SimpleNamespace(**dict(zip(("returncode", "stdout", "stderr"), OUT_OF_MEMORY))))


def half_a_lodging(way, ran):
    """a lodging that is answered 503 leaves a filing without its statements"""
    _, place = refused_at(ran)
    if place is not None:
        run_sql(way, "INSERT INTO filing VALUES ('birch', 9, 'k', 19754, 0, x'5b5d')")
    return ran


def a_row_behind(way, ran):
    """a lodging that is answered 503 leaves an identifier that no request tells"""
    _, place = refused_at(ran)
    if place is not None:
        run_sql(way, "PRAGMA foreign_keys = OFF; INSERT INTO identifier VALUES ('birch', 9, 1, 1, 'X', '1')")
    return ran


# ---- of a disk that fails


def an_answered_filing_is_lost(way, ran):
    """a filing that was answered is lost"""
    return the_last_filing_is_lost(way, ran)


def answered_all_the_same(way, ran):
    """what the disk refused is answered as if it were there"""
    replies, place = refused_at(ran)
    if place is not None:
        replies[place] = way.answers.told(way.answers.asks)[0][place]
    return Ended(SimpleNamespace(returncode=0, stdout=b"".join(replies), stderr=ran.errors))


# ---- of stops


def the_log_is_lost(case, ran):
    """the log is lost"""
    Path(case.folder, f"{DB}-wal").unlink(missing_ok=True)
    return ran


def the_last_filing_is_lost(case, ran):
    """the last filing is lost"""
    last = "(SELECT agent, number FROM filing ORDER BY rowid DESC LIMIT 1)"
    parts = [f"DELETE FROM {name} WHERE (agent, filing) = {last};" for name in PARTS]
    return with_sql(case, ran, f"{''.join(parts)} DELETE FROM filing WHERE (agent, number) = {last}")


def half_a_change(case, ran):
    """a change is there without its last statement to which nothing refers"""
    last = "(SELECT max(rowid) FROM statement WHERE kind <> 'relationship')"
    return with_sql(case, ran, f"DELETE FROM statement WHERE rowid = {last}")


def half_a_withdrawal(case, ran):
    """a withdrawal is there, and statements of its filing are too"""
    return with_sql(case, ran, "UPDATE filing SET withdrawn = 1 WHERE rowid = (SELECT max(rowid) FROM filing)")


def tables_half_moved(case, ran):
    """the version is moved, and the days of interests are not"""
    return with_sql(case, ran, "DELETE FROM period WHERE rowid = (SELECT max(rowid) FROM period)")


def no_database(case, ran):
    """the file is no database any more"""
    Path(case.folder, DB).write_bytes(b"x" * 8_192)
    return ran


def told_too_soon(case, ran):
    """a reply comes before its change is kept"""
    replies = replies_in(ran.output)
    all_replies = wanted([*case.before, *case.asks])[len(case.before) :]
    return told(ran, all_replies[: len(replies) + 1])


def with_sql(case, ran, text):
    """The run, behind which the SQL was run on its file, where that has such tables."""
    try:
        run_sql(case, text)
    except sqlite3.Error:
        pass
    return ran


# ---- which of them is to be found where

DRAFTS, LODGING = "draft joins across agents", "first lodging"
IN_MEMORY = [
    (OverFile, LODGING, a_change_answered_503),
    (OnSocket, LODGING, a_change_answered_503),
    (OverMemory, DRAFTS, a_change_in_memory_answered_503),
    (OverMemory, LODGING, a_second_503),
    (OverFile, DRAFTS, an_answer_lost),
    (OnSocket, DRAFTS, a_server_that_ends),
    (OverFile, DRAFTS, out_of_memory_behind_a_change),
    (OverFile, LODGING, half_a_lodging),
    (OverFile, LODGING, a_row_behind),
]
OF_DISK = [
    (OverFile, LODGING, half_a_lodging),
    (OverFile, DRAFTS, an_answered_filing_is_lost),
    (OnSocket, DRAFTS, an_answered_filing_is_lost),
    (OverFile, DRAFTS, answered_all_the_same),
    (OnSocket, DRAFTS, a_server_that_ends),
]
OF_STOPS = [
    (Served, the_log_is_lost),
    (Reopened, the_log_is_lost),
    (Served, the_last_filing_is_lost),
    (Exchanged, half_a_change),
    (Served, half_a_change),
    (Exchanged, half_a_withdrawal),
    (Exchanged, no_database),
    (Served, told_too_soon),
    (Moved, tables_half_moved),
]


def found(try_it):
    """What finds a fault, and where; none where nothing does."""
    with tempfile.TemporaryDirectory(prefix="bor-planted-") as folder:
        try:
            try_it(folder)
        except Mismatch as mismatch:
            return str(mismatch)
    return None


def of_memory(bor):
    """The name of each fault that is planted behind a refusal, with what found it; nothing without `cc`."""
    with tempfile.TemporaryDirectory(prefix="bor-standin-") as folder:
        library = built(folder)
        for way, name, plant in IN_MEMORY if library else ():
            one = lambda at, way=way, asks=LISTS[name], plant=plant: check_memory.counted(
                bor, library, way(bor, at, asks), STEP, 1, plant
            )
            yield f"planted {way.name}, {plant.__doc__}", found(one)


def of_disk(bor):
    """The name of each fault that is planted behind a failure of the disk, with what found it; nothing without `cc`."""
    with tempfile.TemporaryDirectory(prefix="bor-standin-") as folder:
        library = built(folder)
        for way, name, plant in OF_DISK if library else ():
            one = lambda at, way=way, asks=LISTS[name], plant=plant: check_disk.counted(
                bor, library, way(bor, at, asks), "STANDIN_FAIL", STEP, 1, plant
            )
            yield f"planted {way.name}, {plant.__doc__}", found(one)


def of_stops(bor):
    """The name of each fault that is planted behind a stop, with what found it; nothing without `cc`."""
    with tempfile.TemporaryDirectory(prefix="bor-standin-") as folder:
        library = built(folder)
        for case, plant in OF_STOPS if library else ():
            one = lambda at, case=case, plant=plant: check_stops.counted(
                bor, library, case(bor, at), "STANDIN_STOP", STEP, 1, plant
            )
            yield f"planted in {case.name}, {plant.__doc__}", found(one)
