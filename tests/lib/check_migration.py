"""Registers of version 1, made by SQLite from fixed statements, and what `bor migrate` makes of them."""
import os
import random
import shutil
import sqlite3
from contextlib import closing
from pathlib import Path

from lib.check_files import TEXT, VERSIONS, opening
from lib.checking import DB, LODGED, begun, changed, check, ended, exchange, failed, is_so, report, rows_of, write
from lib.notation import file_of
from lib.random_register import inputs_of
from lib.scripts import loaded

# The tables of version 1, in the order in which a register was set up.
FIRST_TABLES = """
CREATE TABLE register (
    one INT NOT NULL,
    version INTEGER NOT NULL,
    day INTEGER NOT NULL,
    registrar TEXT NOT NULL,
    PRIMARY KEY (one)
) STRICT;
CREATE TABLE agent (
    name TEXT NOT NULL,
    token TEXT NOT NULL,
    PRIMARY KEY (name),
    UNIQUE (token)
) STRICT;
CREATE TABLE filing (
    agent TEXT NOT NULL,
    number INTEGER NOT NULL,
    lodge_key TEXT NOT NULL,
    due INTEGER NOT NULL,
    withdrawn INTEGER NOT NULL,
    bytes BLOB NOT NULL,
    PRIMARY KEY (agent, number),
    UNIQUE (agent, lodge_key),
    FOREIGN KEY (agent) REFERENCES agent (name)
) STRICT;
CREATE TABLE statement (
    agent TEXT NOT NULL,
    filing INTEGER NOT NULL,
    place INTEGER NOT NULL,
    id TEXT NOT NULL,
    day INTEGER NOT NULL,
    declaration TEXT NOT NULL,
    rec TEXT NOT NULL,
    kind TEXT NOT NULL,
    status TEXT NOT NULL,
    sub_kind TEXT,
    name TEXT,
    subject TEXT,
    party TEXT,
    PRIMARY KEY (agent, filing, place),
    UNIQUE (agent, id),
    FOREIGN KEY (agent, filing) REFERENCES filing (agent, number)
) STRICT;
CREATE TABLE interest (
    agent TEXT NOT NULL,
    filing INTEGER NOT NULL,
    place INTEGER NOT NULL,
    item INTEGER NOT NULL,
    kind TEXT NOT NULL,
    directness TEXT NOT NULL,
    low INTEGER,
    low_open INTEGER,
    high INTEGER,
    high_open INTEGER,
    PRIMARY KEY (agent, filing, place, item),
    FOREIGN KEY (agent, filing, place) REFERENCES statement (agent, filing, place)
) STRICT;
CREATE TABLE identifier (
    agent TEXT NOT NULL,
    filing INTEGER NOT NULL,
    place INTEGER NOT NULL,
    item INTEGER NOT NULL,
    scheme TEXT NOT NULL,
    id TEXT NOT NULL,
    PRIMARY KEY (agent, filing, place, item),
    FOREIGN KEY (agent, filing, place) REFERENCES statement (agent, filing, place)
) STRICT;
CREATE INDEX statement_record ON statement (agent, rec, declaration, filing, place);
CREATE INDEX statement_subject ON statement (agent, declaration, subject);
CREATE INDEX identifier_id ON identifier (scheme, id);
CREATE INDEX filing_line ON filing (agent, number, lodge_key, due, withdrawn);
"""
AGENTS = f"""{FIRST_TABLES}
INSERT INTO register VALUES (1, 1, 19754, 'registrar-token-0001');
INSERT INTO agent VALUES ('alder', 'alder-token-000001'), ('birch', 'birch-token-000001');
"""


def blob(words):
    """The bytes of a file in words, as SQL writes them."""
    return f"x'{file_of(words).hex()}'"


# Two drafts have been withdrawn, and a filing with the statement of the first one is published.
IN_ORDER = f"""{AGENTS}
INSERT INTO filing VALUES
    ('alder', 1, 'k1', 19783, 1, {blob("E s1 e1")}),
    ('alder', 2, 'k2', 19783, 1, {blob("E s2 e1")}),
    ('alder', 3, 'k3', 19754, 0, {blob("E s1 e1")});
INSERT INTO statement VALUES
    ('alder', 3, 1, 's1', 19732, 'c1', 'e1', 'entity', 'new', 'registeredEntity', NULL, NULL, NULL);
"""
DATED_FILE = (
    'E s1 e1 #X/1 +new; P s2 p1; R s3 r1 e1<-p1 V100,"endDate":"2024-01" '
    'B,"startDate":"2024-02-03" S0,"startDate":"2024-02","endDate":"2024-02-30"'
)
# A filing of interests with dates is published, one of alder's is withdrawn, and birch has a draft.
DATED = f"""{AGENTS}
INSERT INTO filing VALUES
    ('alder', 1, 'f1', 19754, 0, {blob(DATED_FILE)}),
    ('alder', 2, 'f2', 19783, 1, {blob('R s4 r2 e1<-p1 V60,"startDate":"2023"')}),
    ('birch', 1, 'f1', 19783, 0, {blob('E s1 b1; P s2 q1; R s3 r1 b1<-q1 V60,"startDate":"2024-02-10"')});
INSERT INTO statement VALUES
    ('alder', 1, 1, 's1', 19732, 'c1', 'e1', 'entity', 'new', 'registeredEntity', NULL, NULL, NULL),
    ('alder', 1, 2, 's2', 19732, 'c1', 'p1', 'person', 'new', 'knownPerson', NULL, NULL, NULL),
    ('alder', 1, 3, 's3', 19732, 'c1', 'r1', 'relationship', 'new', NULL, NULL, 'e1', 'p1'),
    ('birch', 1, 1, 's1', 19732, 'c1', 'b1', 'entity', 'new', 'registeredEntity', NULL, NULL, NULL),
    ('birch', 1, 2, 's2', 19732, 'c1', 'q1', 'person', 'new', 'knownPerson', NULL, NULL, NULL),
    ('birch', 1, 3, 's3', 19732, 'c1', 'r1', 'relationship', 'new', NULL, NULL, 'b1', 'q1');
INSERT INTO interest VALUES
    ('alder', 1, 3, 1, 'votingRights', 'unknown', 100, 0, 100, 0),
    ('alder', 1, 3, 2, 'appointmentOfBoard', 'unknown', NULL, NULL, NULL, NULL),
    ('alder', 1, 3, 3, 'shareholding', 'unknown', 0, 0, 0, 0),
    ('birch', 1, 3, 1, 'votingRights', 'unknown', 60, 0, 60, 0);
INSERT INTO identifier VALUES ('alder', 1, 1, 1, 'X', '1');
"""
PERIODS = [
    ("alder", 1, 3, 1, None, 19753),
    ("alder", 1, 3, 2, 19756, None),
    ("alder", 1, 3, 3, 19754, None),
    ("birch", 1, 3, 1, 19763, None),
]
SCHEMA = "SELECT type, name, tbl_name, sql FROM sqlite_schema ORDER BY rowid"
OTHERS = ("register", "agent", "filing", "statement", "interest", "identifier")
FIRST_VERSION = f"register of version 1 in {DB}"
NOT_FREE = f"{DB} is not free for a register"


def made(folder, sql, db=DB):
    """A new file in which the SQL was run."""
    Path(folder, db).unlink(missing_ok=True)
    changed(folder, sql, db)


def dumped(folder, db=DB):
    """All that SQLite reads in the file: the schema, and each row of each table."""
    with closing(sqlite3.connect(Path(folder, db))) as store:
        return sorted(store.iterdump())


def migrate(bor, folder, db=DB):
    return bor.run(["migrate", "--db", db], folder)


def moved(bor, folder, db=DB):
    ended(migrate(bor, folder, db), 0, "version 2\n")


def refused(bor, folder, sql, line):
    """A new file in which the SQL was run is not moved: the line tells why, and its tables stay."""
    made(folder, sql)
    before, ran = dumped(folder), migrate(bor, folder)
    told = (ran.status, ran.output, ran.errors)
    is_so(told == (3, b"", f"bor: {line}\n".encode()), f"{sql[-100:]}: wanted {line}, had {ran.told()}")
    is_so(dumped(folder) == before, f"{sql[-100:]}: the tables have changed")


# ---- what is moved


@check
def a_register_of_version_1_is_moved(bor, folder):
    """a register of version 1 is moved, and goes on as it would have"""
    made(folder, IN_ORDER)
    moved(bor, folder)
    shutil.copy(Path(folder, DB), Path(folder, "alone.db"))
    lines = [("2024-03-01", 1, "withdrawn"), ("2024-03-01", 2, "withdrawn"), ("2024-02-01", 3, "published")]
    filings = ",".join(
        f'{{"due":"{due}","filing":{number},"key":"k{number}","state":"{state}"}}' for due, number, state in lines
    )
    exchange(
        bor,
        folder,
        [
            ("alder filings", f"200 [{filings}]"),
            ("alder file k1", f'200 {file_of("E s1 e1").decode()}'),
            ("alder lodge k2 2024-03-01 E s2 e1", "200 F(2, withdrawn, 2024-03-01)"),
            ("alder lodge k5 2024-02-01 E s1 e5", "422 StatementTwice at 1"),
            ("alder lodge k4 2024-02-01 E s7 e7", "201 F(4, published, 2024-02-01)"),
            ("registrar enrol birch birch-token-000002", "409 NameTaken"),
            ("registrar day 2024-01-31", "409 DayBack"),
        ],
        "alone.db",
    )
    ended(report(bor, folder, db="alone.db"), 0, "entity\talder\tc1\te1\t2024-02-01\npersons 0\n")


@check
def nothing_but_the_version_changes(bor, folder):
    """each row stays but the version's, and the tables are those of a new register"""
    exchange(bor, folder, [("registrar enrol alder alder-token-000001", '201 {"agent":"alder"}')], "new.db")
    for sql in (IN_ORDER, DATED):
        made(folder, sql)
        before = {table: rows_of(folder, f"SELECT * FROM {table}") for table in OTHERS}
        moved(bor, folder)
        before["register"] = [(1, 2, 19754, "registrar-token-0001")]
        for table in OTHERS:
            rows = rows_of(folder, f"SELECT * FROM {table}")
            is_so(rows == before[table], f"{table} has {rows!r:.400}")
        schema = rows_of(folder, SCHEMA)
        is_so(schema == rows_of(folder, SCHEMA, "new.db"), f"the schema is {schema!r:.2000}")
        is_so(rows_of(folder, "PRAGMA integrity_check") == [("ok",)], "integrity_check finds a fault")
        is_so(rows_of(folder, "PRAGMA foreign_key_check") == [], "foreign_key_check finds a fault")


@check
def interests_count_within_their_dates_once_moved(bor, folder):
    """the dates of interests are read from the files of live filings"""
    made(folder, DATED)
    moved(bor, folder)
    rows = sorted(rows_of(folder, "SELECT agent, filing, place, item, starts, ends FROM period"))
    is_so(rows == PERIODS, f"period has {rows}")
    exchange(
        bor,
        folder,
        [
            ("birch chains alder c1 e1 2024-01-31", "200 persons p1:1"),
            ("birch chains alder c1 e1 2024-02-01", "200 no persons"),
            ("birch chains alder c1 e1 2024-02-02", "200 no persons"),
            ("birch chains alder c1 e1 2024-02-03", "200 persons p1:1"),
            ("alder chains birch c1 b1 2024-02-10", "404 NoEntity"),
            ("birch chains birch c1 b1 2024-02-09", "200 no persons"),
            ("birch chains birch c1 b1 2024-02-10", "200 persons birch/c1/q1:1"),
            ("birch withdraw f1", "200 F(1, withdrawn, 2024-03-01)"),
        ],
    )
    rows = sorted(rows_of(folder, "SELECT agent, filing, place, item, starts, ends FROM period"))
    is_so(rows == PERIODS[:3], f"period has {rows}")


@check
def a_register_that_is_moved_twice_stays(bor, folder):
    """a second migration changes nothing, and neither does one of a new register, whatever its files say"""
    made(folder, DATED)
    moved(bor, folder)
    before = dumped(folder)
    moved(bor, folder)
    is_so(dumped(folder) == before, "the tables have changed")
    Path(folder, DB).unlink()
    begun(bor, folder, LODGED)
    changed(folder, "UPDATE filing SET bytes = x'5B5D'; INSERT INTO period VALUES ('alder', 1, 3, 1, 5, NULL)")
    before = dumped(folder)
    moved(bor, folder)
    is_so(dumped(folder) == before, "the tables of a new register have changed")


@check
def what_is_lost_is_there_again(bor, folder):
    """registers made by chance that lose their periods have them again"""
    bytes_of = loaded("chains").bytes_of
    for number in range(4):
        Path(folder, DB).unlink(missing_ok=True)
        bor.exchange([bytes_of(wish) for wish in inputs_of(random.Random(f"moved {number}"))], folder, DB)
        before = dumped(folder)
        is_so(any("INTO \"period\"" in line for line in before), "no interest has dates")
        changed(folder, "DROP TABLE period; UPDATE register SET version = 1")
        moved(bor, folder)
        is_so(dumped(folder) == before, f"register {number} is another one")


@check
def a_register_without_agents_is_moved(bor, folder):
    """a register with no agents is moved"""
    made(folder, f"{FIRST_TABLES} INSERT INTO register VALUES (1, 1, 19754, 'registrar-token-0001')")
    moved(bor, folder)
    exchange(bor, folder, [("registrar day 2024-02-02", '200 {"day":"2024-02-02"}')])


# ---- what isn't


@check
def a_register_of_version_1_is_told(bor, folder):
    """a register of version 1 is told by each other command, and stays as it is"""
    made(folder, IN_ORDER)
    before = dumped(folder)
    failed(report(bor, folder), FIRST_VERSION)
    failed(bor.run(["serve", "--db", DB, "--port", "1", "--connections", "1"], folder), FIRST_VERSION)
    failed(opening(bor, folder, DB), FIRST_VERSION)
    is_so(dumped(folder) == before, "the tables have changed")


ALDERS = "agent = 'alder' AND filing = 1"
# A file that can't be read, or that says another thing than the rows of its statements.
DAMAGE = [
    "UPDATE filing SET bytes = x'5b' WHERE lodge_key = 'f1'",
    "UPDATE filing SET bytes = x'' WHERE agent = 'birch'",
    f"UPDATE filing SET bytes = {blob('E s1 e1 #X/1; P s2 p1')} WHERE agent = 'alder' AND number = 1",
    f"UPDATE filing SET bytes = {blob(DATED_FILE.replace('s2', 's9'))} WHERE agent = 'alder' AND number = 1",
    f"UPDATE filing SET bytes = {blob(DATED_FILE.replace('V100', 'V99'))} WHERE agent = 'alder' AND number = 1",
    f"UPDATE filing SET bytes = {blob(DATED_FILE + '; P s8 p8')} WHERE agent = 'alder' AND number = 1",
    "UPDATE filing SET bytes = x'5B5D' WHERE agent = 'alder' AND number = 1",
    "UPDATE filing SET bytes = x'FF' WHERE agent = 'alder' AND number = 1",
    "UPDATE filing SET withdrawn = 0",
    "UPDATE filing SET withdrawn = 7",
    "UPDATE filing SET due = -99999999",
    f"UPDATE statement SET id = 's9' WHERE {ALDERS} AND place = 2",
    f"UPDATE statement SET day = 19733 WHERE {ALDERS} AND place = 1",
    f"UPDATE statement SET declaration = 'c2' WHERE {ALDERS} AND place = 3",
    f"UPDATE statement SET rec = 'r2' WHERE {ALDERS} AND place = 3",
    f"UPDATE statement SET status = 'updated' WHERE {ALDERS} AND place = 1",
    f"UPDATE statement SET sub_kind = 'legalEntity' WHERE {ALDERS} AND place = 1",
    f"UPDATE statement SET sub_kind = 'anonymousPerson' WHERE {ALDERS} AND place = 2",
    f"UPDATE statement SET name = 'Ann Moss' WHERE {ALDERS} AND place = 2",
    f"UPDATE statement SET subject = 'e2' WHERE {ALDERS} AND place = 3",
    f"UPDATE statement SET party = NULL WHERE {ALDERS} AND place = 3",
    f"UPDATE statement SET kind = 'ship' WHERE {ALDERS} AND place = 1",
    f"DELETE FROM statement WHERE {ALDERS} AND place = 2",
    f"INSERT INTO statement SELECT agent, filing, 4, 's8', day, declaration, 'p8', kind, status, sub_kind, NULL, NULL,"
    f" NULL FROM statement WHERE {ALDERS} AND place = 2",
    f"UPDATE interest SET kind = 'shareholding' WHERE {ALDERS} AND item = 1",
    f"UPDATE interest SET directness = 'direct' WHERE {ALDERS} AND item = 2",
    f"UPDATE interest SET low = 60 WHERE {ALDERS} AND item = 1",
    f"UPDATE interest SET low = NULL, low_open = NULL, high = NULL, high_open = NULL WHERE {ALDERS} AND item = 1",
    f"DELETE FROM interest WHERE {ALDERS} AND item = 3",
    f"INSERT INTO interest SELECT agent, filing, place, 4, kind, directness, low, low_open, high, high_open"
    f" FROM interest WHERE {ALDERS} AND item = 3",
    "UPDATE identifier SET id = '2'",
    "UPDATE identifier SET scheme = 'x'",
    "DELETE FROM identifier",
    "INSERT INTO identifier VALUES ('alder', 1, 1, 2, 'X', '2')",
]


@check
def a_file_that_does_not_fit_its_rows_is_damage(bor, folder):
    """a file that can't be read, or doesn't fit its rows, fails the migration"""
    for sql in DAMAGE:
        refused(bor, folder, f"{DATED}; {sql}", "store failed")
        failed(report(bor, folder), FIRST_VERSION)


@check
def a_status_that_the_file_leaves_out_stays(bor, folder):
    """a status that a file leaves out stays as the tables have it"""
    made(folder, f"{DATED}; UPDATE statement SET status = 'updated' WHERE {ALDERS} AND place = 3")
    moved(bor, folder)
    rows = rows_of(folder, f"SELECT status FROM statement WHERE {ALDERS} ORDER BY place")
    is_so(rows == [("new",), ("new",), ("updated",)], f"the statuses are {rows}")


@check
def a_withdrawn_file_is_not_read(bor, folder):
    """the file of a withdrawn filing is not read by a migration, and stays"""
    made(folder, f"{DATED}; UPDATE filing SET bytes = x'00' WHERE withdrawn = 1")
    moved(bor, folder)
    rows = sorted(rows_of(folder, "SELECT agent, filing, place, item, starts, ends FROM period"))
    is_so(rows == PERIODS, f"period has {rows}")
    rows = rows_of(folder, "SELECT bytes FROM filing WHERE withdrawn = 1")
    is_so(rows == [(b"\0",)], f"the file is {rows}")


NO_REGISTER = f"no register in {DB}"
SPOILED = "UPDATE filing SET bytes = x'5b'"
PERIOD = "CREATE TABLE Period (a INTEGER) STRICT"
# What stands in a file, and what is told of it: the first that is wrong.
REFUSED = [
    ("CREATE TABLE agents (name TEXT) STRICT", NO_REGISTER),
    (f"{VERSIONS} (1, 1)", NO_REGISTER),
    (f"{VERSIONS} (1, 2)", NO_REGISTER),
    (f"{VERSIONS} (1, 3)", f"register of version 3 in {DB}"),
    (f"{VERSIONS} (1, 0)", f"register of version 0 in {DB}"),
    (f"{VERSIONS} (1, 1), (2, 1)", NO_REGISTER),
    (f"{VERSIONS} (1, NULL)", NO_REGISTER),
    (f"{IN_ORDER}; DROP TABLE identifier", NO_REGISTER),
    (f"{IN_ORDER}; DROP TABLE identifier; {PERIOD}", NO_REGISTER),
    (f"{IN_ORDER}; DELETE FROM register", NO_REGISTER),
    (f"{IN_ORDER}; UPDATE register SET version = 2", NO_REGISTER),
    (f"{IN_ORDER}; UPDATE register SET version = 7; {PERIOD}", f"register of version 7 in {DB}"),
    (f"{IN_ORDER}; {PERIOD}", NOT_FREE),
    (f"{IN_ORDER}; CREATE VIEW period AS SELECT 1 AS a", NOT_FREE),
    (f"{IN_ORDER}; CREATE INDEX PERIOD ON agent (token)", NOT_FREE),
    (f"{IN_ORDER}; {SPOILED}; {PERIOD}", NOT_FREE),
    (f"{IN_ORDER}; {SPOILED}", "store failed"),
]


@check
def what_cannot_be_moved_is_told(bor, folder):
    """files without a register, of other versions, or with a name that is taken are told"""
    for sql, line in REFUSED:
        refused(bor, folder, sql, line)


@check
def where_no_database_is_nothing_is_moved(bor, folder):
    """no file, an empty one, a folder and a text are told, and neither is made a register"""
    failed(migrate(bor, folder, "none.db"), "no register in none.db")
    write(folder, "empty.db", b"")
    failed(migrate(bor, folder, "empty.db"), "no register in empty.db")
    failed(migrate(bor, folder, "/"), "store failed")
    is_so(os.listdir(folder) == ["empty.db"], f"files were made: {os.listdir(folder)}")
    write(folder, "text.db", TEXT)
    failed(migrate(bor, folder, "text.db"), "store failed")
    is_so(Path(folder, "text.db").read_bytes() == TEXT, "the file has changed")
