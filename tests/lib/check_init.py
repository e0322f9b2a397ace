"""`bor init`, which makes a register without a request."""
import os
import shutil
import stat
from pathlib import Path

from lib.check_files import FOREIGN, LOOSE, NO_TOKEN, SPOILED, TEXT, others_stay
from lib.checking import DB, ENROLLED, LODGED, REPORT, begun, changed, check, ended, exchange, failed, is_so
from lib.checking import report, rows_of, write
from lib.notation import request_of
from lib.program import REGISTER

TABLES = [line.split()[2] for line in LOOSE.strip().splitlines()[:7]]


def init(bor, folder, db=DB, told=REGISTER):
    return bor.run(["init", "--db", db, *told], folder)


def made(bor, folder, db=DB, told=REGISTER):
    """A register is made, which is told by nothing but the status."""
    ended(init(bor, folder, db, told), 0)


def tables_of(folder, db):
    """The tables of a file, each with how it is defined and its rows."""
    defined = rows_of(folder, "SELECT name, sql FROM sqlite_master ORDER BY name", db)
    return defined, {name: rows_of(folder, f"SELECT * FROM {name}", db) for name in TABLES}


@check
def a_register_is_made_without_a_request(bor, folder):
    """a register is made with the token and the day that are told, for its owner alone, and it is the one that a first exchange makes"""
    made(bor, folder)
    is_so(stat.S_IMODE(Path(folder, DB).stat().st_mode) == 0o600, "others may read the file")
    is_so(rows_of(folder, "SELECT version, day, registrar FROM register") == [(2, 19754, "registrar-token-0001")], "another register is there")
    is_so(rows_of(folder, "PRAGMA integrity_check") == [("ok",)], "the file isn't sound")
    exchange(bor, folder, [NO_TOKEN], "other.db")
    is_so(tables_of(folder, DB) == tables_of(folder, "other.db"), "an exchange makes other tables")
    exchange(bor, folder, [ENROLLED, LODGED])
    ended(report(bor, folder), 0, REPORT)


@check
def the_day_and_the_token_are_those_that_are_told(bor, folder):
    """the day is the one that is told, and the token the one that is told or the first line of a file; the file is whole without its log"""
    write(folder, "token", b"another-token-00001\r\nmore\n")
    made(bor, folder, DB, ["--registrar-file", "token", "--day", "2030-12-31"])
    shutil.copy(Path(folder, DB), Path(folder, "copied.db"))
    for db in (DB, "copied.db"):
        is_so(rows_of(folder, "SELECT day, registrar FROM register", db) == [(22279, "another-token-00001")], f"another register is in {db}")
    write(folder, "day.http", request_of("raw POST /day?date=2031-01-01 HTTP/1.1\\r\\nAuthorization: Bearer another-token-00001\\r\\n\\r\\n"))
    ran = bor.run(["exchange", "--db", DB, *REGISTER, "day.http"], folder)
    is_so(ran.status == 0 and b'{"day":"2031-01-01"}' in ran.output, ran.told())


@check
def an_empty_file_becomes_a_register(bor, folder):
    """a register is made in an empty file"""
    write(folder, "empty.db", b"")
    made(bor, folder, "empty.db")
    ended(report(bor, folder, db="empty.db"), 1, "refused NoEntity\n")


@check
def a_register_that_is_there_stays(bor, folder):
    """where a register is in the file already, that is told, and the file stays as it is"""
    begun(bor, folder, LODGED)
    before = Path(folder, DB).read_bytes()
    for told in (REGISTER, ["--registrar", "another-token-00001", "--day", "2030-01-01"]):
        failed(init(bor, folder, DB, told), f"a register is in {DB} already")
        is_so(Path(folder, DB).read_bytes() == before, "the file has changed")
    ended(report(bor, folder), 0, REPORT)
    made(bor, folder, "new.db")
    failed(init(bor, folder, "new.db"), "a register is in new.db already")


@check
def what_is_no_file_for_a_register_is_told(bor, folder):
    """a path that can't be a register's file is told, and what stands there stays"""
    write(folder, "text.db", TEXT)
    for path in ("text.db", "/", "no-such-folder/a.db", ":memory:"):
        failed(init(bor, folder, path), "store failed")
    is_so(Path(folder, "text.db").read_bytes() == TEXT, "the file has changed")
    others = [it for it in os.listdir(folder) if not it.startswith("text.db")]
    is_so(others == [], f"files were made: {others}")


@check
def files_that_are_not_free_are_told(bor, folder):
    """files of other programs, registers of other versions and spoiled ones are told as an exchange tells them"""
    for sql, _, told in FOREIGN:
        Path(folder, "other.db").unlink(missing_ok=True)
        changed(folder, sql, "other.db")
        failed(init(bor, folder, "other.db"), told)
    for sql, _, told in SPOILED:
        Path(folder, "other.db").unlink(missing_ok=True)
        made(bor, folder, "other.db")
        changed(folder, f"PRAGMA foreign_keys = OFF; {sql}", "other.db")
        failed(init(bor, folder, "other.db"), told)


@check
def none_is_made_beside_other_tables(bor, folder):
    """none is made in a file with the tables of another program, which stay as they are"""
    others_stay(bor, folder, init)


@check
def a_register_that_is_served_stays(bor, folder):
    """while a server has the file, none is made in it"""
    made(bor, folder)
    server = bor.serve(folder, DB, 1)
    failed(init(bor, folder), "store failed")
    server.ask(request_of(NO_TOKEN[0]))
    is_so(server.end() == (0, b""), "the server ended otherwise")


@check
def without_a_token_no_file_is_made(bor, folder):
    """a token that isn't told by its file is told so, and words that don't fit make no file"""
    write(folder, "short", b"short\n")
    day = ["--day", "2024-02-01"]
    failed(init(bor, folder, DB, ["--registrar-file", "short", *day]), "no token in short")
    failed(init(bor, folder, DB, ["--registrar-file", "none", *day]), "cannot read none")
    for told in (day, ["--registrar", "short", *day], REGISTER[:2], [*REGISTER, "--registrar-file", "short"], [*REGISTER[:3], "2024-02-30"]):
        ran = init(bor, folder, DB, told)
        is_so((ran.status, ran.output) == (2, b"") and ran.errors, f"{told}: {ran.told()}")
    is_so(os.listdir(folder) == ["short"], f"files were made: {os.listdir(folder)}")
