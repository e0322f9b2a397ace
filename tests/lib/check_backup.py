"""Backups of a register that is served: tools/backup."""
import os
import stat
import threading
import time
from pathlib import Path

from lib.checking import DB, LODGED, begun, check, exchange, is_so, rows_of
from lib.notation import request, request_of
from lib.program import TOP
from lib.scripts import loaded_from

BACKUP = loaded_from(TOP / "tools" / "backup")
COPY = "copy.db"
CLIENTS = 4
# So many pages are in the log before it is moved into the file and begins anew.
PAGES_OF_A_LOG = 1000
STATEMENT = (
    '{{"statementId":"{0}-{1}","statementDate":"2024-01-10","declarationSubject":"c{0}","recordId":"e{1}",'
    '"recordType":"entity","recordDetails":{{"entityType":{{"type":"registeredEntity"}},"name":"{2}"}}}}'
)


def lodging(key, statements=3, name=""):
    """The request that lodges a file of so many statements under a key."""
    listed = ",".join(STATEMENT.format(key, at, name) for at in range(statements))
    return request("alder", "PUT", f"/filings/{key}?due=2024-02-01", f"[{listed}]".encode())


class Load:
    """Clients that lodge one file after the other until they are stopped, and note what was answered."""

    def __init__(self, server, first=0):
        self.server, self.answered, self.is_over = server, [], threading.Event()
        self.clients = [threading.Thread(target=self.lodge, args=(first + at,)) for at in range(CLIENTS)]

    def lodge(self, client):
        for number in range(200):
            if self.is_over.is_set():
                return
            key = f"k{client}-{number}"
            if self.server.ask(lodging(key)).startswith(b"HTTP/1.1 201 "):
                self.answered.append(key)

    def __enter__(self):
        for it in self.clients:
            it.start()
        while len(self.answered) < 20:
            time.sleep(0.005)
        return self

    def __exit__(self, *_):
        self.is_over.set()
        for it in self.clients:
            it.join()


def served(bor, folder, *rows):
    begun(bor, folder, *rows)
    server = bor.serve(folder, DB, 100_000)
    is_so(server.is_listening(), f"the server said {server.line!r}")
    return server


def keys_in(folder, db):
    return {key for key, in rows_of(folder, "SELECT lodge_key FROM filing", db)}


def whole(folder, db, answered, told):
    """The copy has what was answered before it began, and each filing of it has all of its statements."""
    keys = keys_in(folder, db)
    is_so(len(keys) == told, f"it told of {told} filings and has {len(keys)}")
    is_so(set(answered) <= keys, f"{sorted(set(answered) - keys)} was answered and isn't there")
    torn = "SELECT number FROM filing WHERE 3 <> (SELECT count(*) FROM statement s WHERE s.agent = filing.agent AND s.filing = number)"
    is_so(rows_of(folder, torn, db) == [], "a filing lacks a statement")


def backed_up(bor, folder, copy=COPY, **how):
    return BACKUP.backed_up(Path(folder, DB), Path(folder, copy), bor.path, **how)


@check
def a_backup_under_load_has_what_was_answered(bor, folder):
    """a backup while clients lodge is one file for its owner alone, with each lodging that was answered before it began"""
    server = served(bor, folder)
    with Load(server) as load:
        for at in range(3):
            answered = list(load.answered)
            count, _ = backed_up(bor, folder, f"copy{at}.db")
            whole(folder, f"copy{at}.db", answered, count)
    server.stop()
    is_so(sorted(it.name for it in Path(folder).glob("copy*")) == [f"copy{at}.db" for at in range(3)], "more than copies is left")
    is_so(stat.S_IMODE(os.stat(Path(folder, "copy2.db")).st_mode) == 0o600, "others may read the copy")
    is_so(not list(Path(folder).glob(".backup-*")), "a folder is left")
    exchange(bor, folder, [("alder file k0-0", f"200 {lodging('k0-0').split(bytes([13, 10, 13, 10]))[1].decode()}")], "copy0.db")


@check
def a_backup_begins_again_where_the_log_does(bor, folder):
    """where the log is moved into the file between its copy and the file's, both are copied again"""
    server = served(bor, folder, LODGED)
    told = []

    def fill():
        """Lodges more than the log takes, the first time."""
        if not told:
            log = Path(folder, f"{DB}-wal")
            before = BACKUP.header(log)
            for number in range(200):
                told.append(f"big{number}")
                server.ask(lodging(told[-1], 8, "x" * 30_000))
                if BACKUP.header(log) != before:
                    return

    count, times = backed_up(bor, folder, between=fill)
    server.stop()
    is_so(times == 2 and 2 <= len(told) < 200, f"copied {times} times, after {len(told)} lodgings")
    is_so(count == 1 + len(told) and keys_in(folder, COPY) == {"f1", *told}, f"{count} filings are in the copy")


@check
def a_copy_that_begins_with_the_file_is_torn(bor, folder):
    """the same copy made the other way round, file before log and looking at neither, loses lodgings or can't be opened"""
    server = served(bor, folder, LODGED)
    log, part = Path(folder, f"{DB}-wal"), str(Path(folder, COPY))
    BACKUP.copy(Path(folder, DB), part)
    before, told = BACKUP.header(log), ["f1"]
    while BACKUP.header(log) == before and len(told) < 200:
        told.append(f"big{len(told)}")
        server.ask(lodging(told[-1], 8, "x" * 30_000))
    BACKUP.copy(log, f"{part}-wal")
    server.stop()
    try:
        BACKUP.moved_in(bor.path, part)
        kept = BACKUP.filings_in(part)
    except (BACKUP.Failed, BACKUP.sqlite3.Error):
        return
    is_so(kept < len(told), f"{kept} of {len(told)} filings are there")


@check
def a_server_stands_still_for_a_backup(bor, folder):
    """with --pause the server stands still while it is copied and goes on then, also where the copy can't be made"""
    server = served(bor, folder, LODGED)
    seen = []
    count, times = backed_up(bor, folder, pause=True, between=lambda: seen.append(BACKUP.is_stopped(server.ran.pid)))
    is_so((count, times, seen) == (1, 1, [True]), f"copied {times} times with {count} filings, and it stood still: {seen}")
    is_so(not BACKUP.is_stopped(server.ran.pid), "the server is still stopped")

    def fail():
        raise OSError("the disk is full")

    try:
        backed_up(bor, folder, "other.db", pause=True, between=fail)
        is_so(False, "a copy was made")
    except OSError:
        pass
    is_so(server.ask(request_of("alder filings")).startswith(b"HTTP/1.1 200 "), "the server doesn't go on")
    server.stop()


@check
def what_cannot_be_copied_is_told(bor, folder):
    """a copy that is there, a file that isn't, one that is no register, and one that changes too fast are told, and no copy is made"""
    begun(bor, folder, LODGED)
    Path(folder, "there.db").write_bytes(b"there")
    Path(folder, "text.db").write_bytes(b"no register" * 100)
    Path(folder, "empty.db").touch()
    for words, said in (
        ([DB, "there.db"], "there.db is there already"),
        (["none.db", COPY], "none.db"),
        (["text.db", COPY], "store failed"),
        (["empty.db", COPY], "no register in"),
    ):
        ran = BACKUP.subprocess.run(
            [TOP / "tools" / "backup", "--bor", bor.path, *words], cwd=folder, capture_output=True, text=True, check=False
        )
        is_so(ran.returncode == 1 and said in ran.stderr and ran.stdout == "", f"{words}: {ran}")
    try:
        backed_up(bor, folder, between=lambda: os.utime(Path(folder, DB)), seconds=0.5)
        is_so(False, "a copy was made")
    except BACKUP.Failed as fault:
        is_so("changes faster" in str(fault), str(fault))
    is_so(not Path(folder, COPY).exists(), "a copy is there")
    count, times = backed_up(bor, folder)
    is_so((count, times) == (1, 1) and keys_in(folder, COPY) == {"f1"}, f"copied {times} times with {count} filings")
