"""Files that hold a register, and files that hold none."""
import os
import shutil
import subprocess
from pathlib import Path

from lib.checking import DB, ENROLMENT, LODGED, LODGING, REPORT, begun, changed, check, ended, exchange
from lib.checking import failed, is_so, replied, report, rows_of, write
from lib.notation import request_of
from lib.program import REGISTER, SECONDS, TOP, Ended, free_port
from lib.replies import replies_in

NO_TOKEN = ("raw GET /filings HTTP/1.1\\r\\n\\r\\n", "401 NoToken")
TEXT = b"This is a text, and longer than the head of a database would be: it has more than a hundred bytes.\n" * 2
DAY_FILES = TOP / "examples" / "day"
NOBODY = 65_534
# The columns of a register's seven tables.
LOOSE = """
CREATE TABLE register (one, version, day, registrar);
CREATE TABLE agent (name, token);
CREATE TABLE filing (agent, number, lodge_key, due, withdrawn, bytes);
CREATE TABLE statement (agent, filing, place, id, day, declaration, rec, kind, status, sub_kind, name, subject, party);
CREATE TABLE interest (agent, filing, place, item, kind, directness, low, low_open, high, high_open);
CREATE TABLE identifier (agent, filing, place, item, scheme, id);
CREATE TABLE period (agent, filing, place, item, starts, ends);
INSERT INTO register VALUES (1, 2, 19754, 'registrar-token-0001');
"""


def opening(bor, folder, path):
    """An exchange of one request over the file, which needs no agent."""
    write(folder, "none.http", request_of(NO_TOKEN[0]))
    return bor.run(["exchange", "--db", path, *REGISTER, "none.http"], folder)


def served(bor, folder, path):
    """A server of no connections over the file."""
    return bor.run(["serve", "--db", path, "--port", str(free_port()), "--connections", "0"], folder)


# ---- a register that stays


@check
def a_register_stays_from_run_to_run(bor, folder):
    """a register stays from run to run, in the file alone, with its own token and day"""
    begun(bor, folder, LODGED)
    exchange(bor, folder, [(ENROLMENT, "409 NameTaken"), (LODGING, "200 F(1, published, 2024-02-01)")])
    ended(report(bor, folder), 0, REPORT)
    ended(report(bor, folder, "e2"), 1, "refused NoEntity\n")
    write(folder, "filings.http", request_of("alder filings"))
    words = ["exchange", "--db", DB, "--registrar", "another-token-00001", "--day", "2030-01-01", "filings.http"]
    listed = '200 [{"due":"2024-02-01","filing":1,"key":"f1","state":"published"}]'
    replied(bor.run(words, folder), [("alder filings", listed)])
    shutil.copy(Path(folder, DB), Path(folder, "copied.db"))
    ended(report(bor, folder, db="copied.db"), 0, REPORT)


@check
def a_register_in_memory_is_forgotten(bor, folder):
    """a register in memory knows nobody at the start, and is gone at the end"""
    asked = [request_of(LODGING)]
    for _ in range(2):
        replied(bor.exchange(asked, folder), [(LODGING, "@no-agent.reply")])


@check
def the_example_day_is_answered(bor, folder):
    """the requests of the example day have the replies that stand beside them"""
    requests = sorted(DAY_FILES.glob("*.http"))
    is_so(len(requests) > 1, f"no requests in {DAY_FILES}")
    for store in ([], ["--db", "day.db"]):
        ran = bor.run(["exchange", *store, *REGISTER, *map(str, requests)], folder)
        for request, told in zip(requests, replies_in(ran.output) + [b""] * len(requests)):
            is_so(told == request.with_suffix(".reply").read_bytes(), f"{request.name}: told {told!r}")
        is_so((ran.status, ran.errors) == (1, b""), ran.told())
        is_so(len(replies_in(ran.output)) == len(requests), "more replies than requests")


# ---- no register


@check
def where_no_file_is_there_is_no_register(bor, folder):
    """where no file is there is no register, and none is made to look"""
    failed(report(bor, folder, db="none.db"), "no register in none.db")
    words = ["serve", "--db", "none.db", "--port", "1", "--connections", "1"]
    failed(bor.run(words, folder), "no register in none.db")
    is_so(os.listdir(folder) == [], f"files were made: {os.listdir(folder)}")


@check
def an_empty_file_holds_no_register(bor, folder):
    """an empty file holds no register, and one is set up in it"""
    write(folder, "empty.db", b"")
    failed(report(bor, folder, db="empty.db"), "no register in empty.db")
    replied(opening(bor, folder, "empty.db"), [NO_TOKEN])
    ended(report(bor, folder, db="empty.db"), 1, "refused NoEntity\n")


@check
def a_file_that_is_no_database_stays(bor, folder):
    """a file that is no database is told, and stays as it is"""
    write(folder, "text.db", TEXT)
    failed(report(bor, folder, db="text.db"), "store failed")
    failed(opening(bor, folder, "text.db"), "store failed")
    failed(served(bor, folder, "text.db"), "store failed")
    is_so(Path(folder, "text.db").read_bytes() == TEXT, "the file has changed")


@check
def a_path_that_cannot_be_a_file_is_told(bor, folder):
    """a path that can't be a file is told"""
    for path in ("/", "no-such-folder/a.db", ":memory:"):
        failed(opening(bor, folder, path), "store failed")
    failed(report(bor, folder, db="/"), "store failed")
    is_so(os.listdir(folder) == ["none.http"], f"files were made: {os.listdir(folder)}")


@check
def a_file_that_may_not_be_written_is_told(bor, folder):
    """a register that may not be written is told, and stays as it is"""
    begun(bor, folder, LODGED)
    for name in ("none.http", DB):
        write(folder, "none.http", request_of(NO_TOKEN[0]))
        Path(folder, name).chmod(0o444)
    Path(folder).chmod(0o777)
    before = Path(folder, DB).read_bytes()
    seen = ["--viewer", "alder", "--agent", "alder", "--declaration", "c1", "--record", "e1"]
    asked = [["report", *seen], ["exchange", *REGISTER, "none.http"], ["migrate"]]
    for words in ([command, "--db", DB, *words] for command, *words in asked):
        failed(as_nobody(bor, folder, words), "store failed")
    is_so(Path(folder, DB).read_bytes() == before, "the file has changed")


def as_nobody(bor, folder, words):
    """A run whom the marks of a file bind: where they don't bind who runs this, it is somebody else."""
    if os.geteuid():
        return bor.run(words, folder)
    program = Path(folder, "bor")
    if not program.exists():
        shutil.copy(bor.path, program)
        program.chmod(0o755)
    streams = {"stdin": subprocess.DEVNULL, "capture_output": True, "timeout": SECONDS}
    return Ended(subprocess.run([str(program), *words], cwd=folder, user=NOBODY, group=NOBODY, **streams))


# ---- files of others, and of other versions


def told_of(bor, folder, sql, reported, exchanged):
    """A new file in which the SQL was run is told so by a report and a server, and by an exchange."""
    path = "other.db"
    Path(folder, path).unlink(missing_ok=True)
    changed(folder, sql, path)
    failed(report(bor, folder, db=path), reported)
    failed(served(bor, folder, path), reported)
    failed(opening(bor, folder, path), exchanged)


NONE, TAKEN = "no register in other.db", "other.db is not free for a register"
ONE, SEVEN = "register of version 1 in other.db", "register of version 7 in other.db"
VERSIONS = "CREATE TABLE Register (VERSION, One); INSERT INTO Register (One, VERSION) VALUES "
FOREIGN = [
    ("CREATE TABLE agents (name TEXT) STRICT", NONE, TAKEN),
    ("CREATE VIEW agents AS SELECT 1 AS name", NONE, TAKEN),
    ("CREATE TABLE agent (name TEXT) STRICT", NONE, TAKEN),
    ("CREATE TABLE agent (age INTEGER) STRICT", NONE, TAKEN),
    ("CREATE TABLE IDENTIFIER (name TEXT) STRICT", NONE, TAKEN),
    ("CREATE TABLE Period (name TEXT) STRICT", NONE, TAKEN),
    ("CREATE VIEW Filing AS SELECT 1 AS number", NONE, TAKEN),
    ("CREATE VIEW register AS SELECT 1 AS one, 1 AS version", NONE, TAKEN),
    ("CREATE TABLE t (a INTEGER) STRICT; CREATE INDEX Filing_Line ON t (a)", NONE, TAKEN),
    ("CREATE TABLE register (version INTEGER NOT NULL) STRICT", NONE, TAKEN),
    ("CREATE TABLE register (one INTEGER, version INTEGER) STRICT", NONE, TAKEN),
    ("CREATE TABLE register (one INTEGER, version INTEGER) STRICT; INSERT INTO register VALUES (1, 7)", SEVEN, SEVEN),
    (VERSIONS + "(1, 7)", SEVEN, SEVEN),
    (VERSIONS + "(5, -1)", "register of version -1 in other.db", "register of version -1 in other.db"),
    (VERSIONS + "(1, 1)", ONE, ONE),
    (VERSIONS + "(1, 2)", NONE, TAKEN),
    (VERSIONS + "(1, 7), (2, 7)", NONE, TAKEN),
    (VERSIONS + "(1, NULL)", NONE, TAKEN),
    (VERSIONS + "(1, 'seven')", NONE, TAKEN),
]


@check
def files_of_other_programs_are_told(bor, folder):
    """files of other programs and registers of other versions are told"""
    for sql, reported, exchanged in FOREIGN:
        told_of(bor, folder, sql, reported, exchanged)


# The tables of another program, with all that may stand in a database beside tables.
OTHERS = """
PRAGMA user_version = 5;
CREATE TABLE customer (id INTEGER PRIMARY KEY AUTOINCREMENT, name TEXT NOT NULL UNIQUE);
CREATE TABLE bill (customer INTEGER NOT NULL REFERENCES customer (id), cents INTEGER) STRICT;
CREATE INDEX bill_of ON bill (customer);
CREATE VIEW owing AS SELECT name, cents FROM customer JOIN bill ON bill.customer = customer.id;
CREATE TABLE note (text);
CREATE TRIGGER note_made AFTER INSERT ON note BEGIN UPDATE note SET text = upper(text); END;
INSERT INTO note VALUES ('paid');
INSERT INTO customer (name) VALUES ('Ann'), ('Ben');
INSERT INTO bill VALUES (1, 250), (2, 1000), (2, NULL);
"""
# What is there: how each is defined, and the rows.
OTHERS_READ = [
    "SELECT type, name, tbl_name, rootpage, sql FROM sqlite_master ORDER BY name",
    *(f"SELECT * FROM {it}" for it in ("customer", "bill", "owing", "note", "sqlite_sequence", "pragma_user_version")),
]


def others_stay(bor, folder, run):
    """The run, on a file with the tables of another program, is told that it isn't free, and they stay as they were."""
    changed(folder, OTHERS, "other.db")
    before = [rows_of(folder, query, "other.db") for query in OTHERS_READ]
    failed(run(bor, folder, "other.db"), TAKEN)
    for query, there in zip(OTHERS_READ, before):
        is_so(there and rows_of(folder, query, "other.db") == there, f"{query}: {rows_of(folder, query, 'other.db')}")
    is_so(rows_of(folder, "PRAGMA integrity_check", "other.db") == [("ok",)], "the file isn't sound")


@check
def no_register_is_set_up_beside_other_tables(bor, folder):
    """a file with the tables of another program isn't free for a register, and they stay as they were"""
    others_stay(bor, folder, opening)


@check
def a_file_without_tables_is_free(bor, folder):
    """a database whose tables were all dropped is free for a register, which answers as one in a new file"""
    changed(folder, "PRAGMA user_version = 5; CREATE TABLE t (a); DROP TABLE t", "bare.db")
    requests = [*map(str, sorted(DAY_FILES.glob("*.http")))]
    alone = bor.run(["exchange", "--db", "day.db", *REGISTER, *requests], folder)
    bare = bor.run(["exchange", "--db", "bare.db", *REGISTER, *requests], folder)
    is_so((bare.output, bare.status, bare.errors) == (alone.output, 1, b""), bare.told())
    is_so(rows_of(folder, "PRAGMA user_version", "bare.db") == [(5,)], "the user version has changed")
    is_so(rows_of(folder, "PRAGMA integrity_check", "bare.db") == [("ok",)], "the file isn't sound")


# What is done to a register's own tables, and what is told then.
SPOILED = [
    ("UPDATE register SET version = 7", SEVEN, SEVEN),
    ("UPDATE register SET version = 1", ONE, ONE),
    ("DELETE FROM register", NONE, TAKEN),
    ("ALTER TABLE interest DROP COLUMN high_open", NONE, TAKEN),
    ("DROP TABLE identifier", NONE, TAKEN),
    ("ALTER TABLE period DROP COLUMN ends", NONE, TAKEN),
    ("DROP TABLE period", NONE, TAKEN),
]


@check
def registers_that_lack_something_are_told(bor, folder):
    """a register's tables of another version, or with something missing, are told"""
    for sql, reported, exchanged in SPOILED:
        Path(folder, DB).unlink(missing_ok=True)
        exchange(bor, folder, [NO_TOKEN])
        changed(folder, f"PRAGMA foreign_keys = OFF; {sql}")
        shutil.copy(Path(folder, DB), Path(folder, "other.db"))
        failed(report(bor, folder, db="other.db"), reported)
        failed(opening(bor, folder, "other.db"), exchanged)


@check
def tables_are_known_by_their_columns(bor, folder):
    """tables are known by their columns, not by their order or by the case of their letters"""
    names = "period identifier Agent interest statement filing register".split()
    made = {line.split()[2].lower(): line for line in LOOSE.strip().splitlines()[:7]}
    tables = [made[name.lower()] for name in names] + LOOSE.strip().splitlines()[7:]
    ordered = "\n".join(tables)
    agents = made["agent"]
    for other, is_known in (
        (agents, True),
        ("CREATE TABLE Agent (age, TOKEN, Name);", True),
        ("CREATE TABLE agent (name);", False),
        ("CREATE TABLE agents (name, token);", False),
    ):
        Path(folder, "other.db").unlink(missing_ok=True)
        changed(folder, ordered.replace(agents, other), "other.db")
        if is_known:
            ended(report(bor, folder, db="other.db"), 1, "refused NoEntity\n")
        else:
            failed(report(bor, folder, db="other.db"), NONE)


@check
def the_file_is_whole(bor, folder):
    """SQLite finds no fault in the file after each kind of change"""
    begun(
        bor,
        folder,
        LODGED,
        ("alder lodge f2 2024-03-01 E s4 e2 #X/1; R s5 r2 e2<-p1 S5 B", "201 F(2, draft, 2024-03-01)"),
        ("alder lodge f3 2024-03-01 E s6 e2 #X/2 +closed", "201 F(3, draft, 2024-03-01)"),
        ("alder withdraw f3", "200 F(3, withdrawn, 2024-03-01)"),
        ("alder withdraw f2", "200 F(2, withdrawn, 2024-03-01)"),
        ("registrar day 2024-03-01", '200 {"day":"2024-03-01"}'),
    )
    is_so(rows_of(folder, "PRAGMA integrity_check") == [("ok",)], "integrity_check finds a fault")
    is_so(rows_of(folder, "PRAGMA foreign_key_check") == [], "foreign_key_check finds a fault")
