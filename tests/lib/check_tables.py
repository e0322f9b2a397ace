"""What stands in the tables, and what is told of tables that were changed by others."""
import shutil
from pathlib import Path

from lib.check_files import LOOSE
from lib.checking import DB, LODGED, begun, changed, check, ended, exchange, failed, is_so, report, rows_of
from lib.notation import first_file, request_of
from lib.program import REGISTER
from lib.replies import replies_in

STORE_FAULT = "@unavailable.reply"
FILINGS = ("alder filings", '200 [{"due":"2024-02-01","filing":1,"key":"f1","state":"published"}]')
SNAPSHOT, FILE = "alder snapshot alder c1", "alder file f1"
CHAINS, EVIDENCE = "alder chains alder c1 e1", "alder evidence alder c1 e1"
NAMED = '200 persons p1:1"Ann Moss"'


# ---- what stands in the tables

FIRST_ROWS = {
    "register": [(1, 2, 19754, "registrar-token-0001")],
    "agent": [("alder", "alder-token-000001")],
    "filing": [("alder", 1, "f1", 19754, 0, first_file())],
    "statement": [
        ("alder", 1, 1, "s1", 19732, "c1", "e1", "entity", "new", "registeredEntity", "Alder Ltd", None, None),
        ("alder", 1, 2, "s2", 19732, "c1", "p1", "person", "new", "knownPerson", "Ann Moss", None, None),
        ("alder", 1, 3, "s3", 19732, "c1", "r1", "relationship", "new", None, None, "e1", "p1"),
    ],
    "interest": [("alder", 1, 3, 1, "votingRights", "unknown", 100, 0, 100, 0)],
    "identifier": [],
    "period": [],
}
COLUMNS = {
    "register": "one, version, day, registrar",
    "agent": "name, token",
    "filing": "agent, number, lodge_key, due, withdrawn, bytes",
    "statement": "agent, filing, place, id, day, declaration, rec, kind, status, sub_kind, name, subject, party",
    "interest": "agent, filing, place, item, kind, directness, low, low_open, high, high_open",
    "identifier": "agent, filing, place, item, scheme, id",
    "period": "agent, filing, place, item, starts, ends",
}


@check
def the_first_lodging_stands_in_the_tables(bor, folder):
    """the first lodging stands in seven tables, its days as their numbers"""
    begun(bor, folder, LODGED)
    for table, wanted in FIRST_ROWS.items():
        rows = sorted(rows_of(folder, f"SELECT {COLUMNS[table]} FROM {table}"), key=lambda row: row[:3])
        is_so(rows == wanted, f"{table} has {rows!r:.400}")


DATED = (
    'alder lodge f1 2024-02-01 E s1 e1; R s2 r1 e1<-p1 V60,"endDate":"2024" V60,"endDate":2024 '
    'S1,"startDate":"2024-02" B,"startDate":"2024-01-15","endDate":"2024-01-15T09:00:00Z"; P s3 p1'
)


@check
def a_period_stands_where_a_date_can_be_read(bor, folder):
    """an interest has a row of days where one of its dates can be read"""
    begun(bor, folder, (DATED, "201 F(1, published, 2024-02-01)"))
    rows = rows_of(folder, f"SELECT {COLUMNS['period']} FROM period ORDER BY item")
    wanted = [(1, None, 20088), (3, 19754, None), (4, 19737, 19737)]
    is_so(rows == [("alder", 1, 2, *days) for days in wanted], f"period has {rows}")


IN_ORDER = [
    ("alder lodge k1 2024-03-01 E s1 e1", "201 F(1, draft, 2024-03-01)"),
    ("alder lodge k2 2024-03-01 E s2 e1", "201 F(2, draft, 2024-03-01)"),
    ("alder withdraw k2", "200 F(2, withdrawn, 2024-03-01)"),
    ("alder withdraw k1", "200 F(1, withdrawn, 2024-03-01)"),
    ("alder lodge k3 2024-02-01 E s1 e1", "201 F(3, published, 2024-02-01)"),
]
JOINING = [
    (
        'alder lodge g1 2024-03-01 E s1 e1; E s2 a1 #GB-COH/00000001; R s3 r1 e1<-a1 S10,"startDate":"2024"',
        "201 F(1, draft, 2024-03-01)",
    ),
    ("alder withdraw g1", "200 F(1, withdrawn, 2024-03-01)"),
]


@check
def a_withdrawn_filing_leaves_no_rows(bor, folder):
    """a withdrawn filing leaves its line and file, and no statement, interest, identifier or period"""
    for place, rows in enumerate((IN_ORDER, JOINING)):
        db = f"{place}.db"
        exchange(bor, folder, [("registrar enrol alder alder-token-000001", '201 {"agent":"alder"}'), *rows], db)
        withdrawn = rows_of(folder, "SELECT number FROM filing WHERE withdrawn = 1 AND length(bytes) > 0", db)
        is_so(withdrawn, "no filing is withdrawn, or its bytes are gone")
        for table in ("statement", "interest", "identifier", "period"):
            left = f"SELECT * FROM {table} JOIN filing ON (filing.agent, number) = ({table}.agent, {table}.filing)"
            left = rows_of(folder, f"{left} WHERE withdrawn = 1", db)
            is_so(not left, f"{table} has {left!r:.200}")
        for pragma, wanted in (("integrity_check", [("ok",)]), ("foreign_key_check", [])):
            is_so(rows_of(folder, f"PRAGMA {pragma}", db) == wanted, f"{pragma} finds a fault")
    rows = rows_of(folder, "SELECT agent, filing, id FROM statement", "0.db")
    is_so(rows == [("alder", 3, "s1")], f"statement has {rows}")


# ---- values of no form

DAMAGE = [
    ("UPDATE statement SET kind = 'ship' WHERE id = 's1'", "alder published"),
    ("UPDATE statement SET status = 'gone' WHERE id = 's1'", "alder published"),
    ("UPDATE statement SET sub_kind = 'ship' WHERE id = 's2'", "alder published"),
    ("UPDATE statement SET day = 99999999 WHERE id = 's1'", SNAPSHOT),
    ("UPDATE statement SET rec = '' WHERE id = 's1'", "alder published"),
    ("UPDATE statement SET subject = '' WHERE id = 's3'", SNAPSHOT),
    ("UPDATE interest SET kind = 'ship'", SNAPSHOT),
    ("UPDATE interest SET low = 60, low_open = 1, high = 60", CHAINS),
    ("UPDATE interest SET high = 101", CHAINS),
    ("UPDATE interest SET high = NULL", CHAINS),
    ("UPDATE interest SET low = NULL", CHAINS),
    ("UPDATE interest SET high = 101", EVIDENCE),
    ("UPDATE interest SET low_open = 2", "alder published"),
    ("INSERT INTO period VALUES ('alder', 1, 3, 1, 99999999, NULL)", SNAPSHOT),
    ("INSERT INTO period VALUES ('alder', 1, 3, 1, NULL, -99999999)", CHAINS),
    ("UPDATE filing SET due = -99999999", "alder filings"),
    ("UPDATE filing SET withdrawn = 7", FILE),
    ("UPDATE register SET day = 99999999", "alder filings"),
    ("UPDATE register SET registrar = 'short'", "alder filings"),
]


def spoiled(bor, folder, sql):
    """A copy of a register with the first lodging, in which the SQL was run."""
    if not Path(folder, "first.db").exists():
        begun(bor, folder, LODGED)
        shutil.copy(Path(folder, DB), Path(folder, "first.db"))
    shutil.copy(Path(folder, "first.db"), Path(folder, DB))
    changed(folder, sql)


@check
def a_value_of_no_form_is_damage(bor, folder):
    """a value of no form in a table is told as 503, and the exit status is 3"""
    for sql, ask in DAMAGE:
        spoiled(bor, folder, sql)
        exchange(bor, folder, [(ask, STORE_FAULT)])
    spoiled(bor, folder, "UPDATE interest SET high = 101")
    failed(report(bor, folder), "store failed")


@check
def damage_is_told_of_what_is_asked_for_alone(bor, folder):
    """damage is told of what is asked for alone"""
    spoiled(bor, folder, DAMAGE[0][0])
    lodged = ("alder lodge f2 2024-02-01 E s9 e9 in c9", "201 F(2, published, 2024-02-01)")
    exchange(bor, folder, [("alder published", STORE_FAULT), FILINGS, lodged])
    both = FILINGS[1][:-1] + ',{"due":"2024-02-01","filing":2,"key":"f2","state":"published"}]'
    exchange(bor, folder, [("alder filings", both)])


@check
def a_missing_row_is_in_no_report(bor, folder):
    """a row that is gone leaves a report on what is there"""
    for sql, wanted in (
        ("DELETE FROM interest WHERE item = 9", NAMED),
        ("DELETE FROM interest", "200 no persons"),
        ("PRAGMA foreign_keys = OFF; DELETE FROM statement WHERE id = 's2'", "200 no persons"),
    ):
        spoiled(bor, folder, sql)
        exchange(bor, folder, [(CHAINS, wanted)])


# ---- rows of nothing, in tables that take any rows

ALDERS = """
INSERT INTO agent VALUES ('alder', 'alder-token-000001');
INSERT INTO filing VALUES ('alder', 1, 'f1', 19754, 0, x'5B5D');
INSERT INTO statement VALUES
    ('alder', 1, 1, 's1', 19732, 'c1', 'e1', 'entity', 'new', 'registeredEntity', 'Alder Ltd', NULL, NULL);
"""
OF_NO_FILING = """INSERT INTO statement VALUES
    ('alder', 9, 1, 's9', 19732, 'c1', 'e9', 'entity', 'new', 'registeredEntity', NULL, NULL, NULL)"""
ORPHANS = [
    OF_NO_FILING,
    """INSERT INTO statement VALUES
    ('birch', 1, 1, 's9', 19732, 'c1', 'e9', 'person', 'new', 'knownPerson', NULL, NULL, NULL)""",
    "INSERT INTO interest VALUES ('alder', 0, 1, 1, 'votingRights', 'direct', NULL, NULL, NULL, NULL)",
    "INSERT INTO identifier VALUES ('alder', 1, 7, 1, 'X', '1')",
    "INSERT INTO period VALUES ('alder', 1, 1, 1, NULL, 19754)",
    "INSERT INTO filing VALUES ('birch', 1, 'f1', 19754, 0, x'00')",
]
TWO_OF_ONE_KEY = "INSERT INTO filing VALUES ('alder', 1, 'f1', 19754, 1, x'01')"
SHOWN = (
    SNAPSHOT,
    '200 {"date":"2024-02-01","records":[{"date":"2024-01-10","details":{"identifiers":[],"kind":'
    '"registeredEntity","name":"Alder Ltd"},"id":"s1","record":"e1","status":"new","type":"entity"}]}',
)
ASKED = [
    FILINGS,
    ("alder file f1", "200 []"),
    (
        "alder published",
        '200 [{"agent":"alder","due":"2024-02-01","statements":[{"date":"2024-01-10","declaration":"c1",'
        '"id":"s1","record":"e1","status":"new","type":"entity"}]}]',
    ),
    SHOWN,
    (CHAINS, "200 no persons"),
    ("alder withdraw f1", "409 Published"),
    ("alder lodge f2 2024-02-01 E s2 e2", "201 F(2, published, 2024-02-01)"),
    ("registrar day 2024-03-01", '200 {"day":"2024-03-01"}'),
]


def loose(folder, sql):
    Path(folder, DB).unlink(missing_ok=True)
    changed(folder, f"{LOOSE};{ALDERS};{sql}")


@check
def a_row_of_nothing_is_in_no_reply(bor, folder):
    """a row that belongs to nothing is in no reply, and ends no request"""
    for sql in ORPHANS:
        loose(folder, sql)
        exchange(bor, folder, ASKED)
    loose(folder, TWO_OF_ONE_KEY)
    ran = bor.exchange([request_of(ask) for ask, _ in ASKED], folder, DB)
    replies = replies_in(ran.output)
    is_so(len(replies) == len(ASKED) and b" 503 " not in ran.output, ran.told())
    is_so(ran.status in (0, 1) and ran.errors == b"", ran.told())


@check
def a_statement_of_no_filing_is_not_followed(bor, folder):
    """a statement of no filing is neither followed nor shown"""
    loose(folder, OF_NO_FILING)
    exchange(bor, folder, [("alder lodge f2 2024-02-01 E s2 e9", STORE_FAULT), SHOWN])


# ---- when a report reads all rows at once

LADDER = "alder lodge f1 2024-02-01 P p p1; R r r e299<-p1 V100; E s e299 #X/299" + "".join(
    f"; E s{i} e{i} #X/{i}; R t{i} r{i} e{i}<-e{i + 1} V100" for i in range(299)
)


def crowd(key):
    others = "".join(f"; P {key}{i} p{key}{i}" for i in range(998))
    return f"birch lodge {key} 2024-02-01 P {key} p{others}"


@check
def a_report_reads_all_where_it_has_met_much(bor, folder):
    """a report reads all rows at once where it has met much of the register, and else what it meets"""
    published = "201 F({}, published, 2024-02-01)"
    begun(
        bor,
        folder,
        ("registrar enrol birch birch-token-000001", '201 {"agent":"birch"}'),
        (crowd("g1"), published.format(1)),
        (crowd("g2").replace("P g2 p;", "P g2 q;"), published.format(2)),
        (LADDER, published.format(1)),
    )
    changed(folder, "UPDATE statement SET kind = 'ship' WHERE id = 'g1'")
    exchange(
        bor,
        folder,
        [
            ("birch chains alder c1 e200", "200 persons p1:100"),
            ("birch chains alder c1 e100", "200 persons p1:200"),
            ("birch chains alder c1 e0", STORE_FAULT),
        ],
    )


@check
def a_new_register_is_ready(bor, folder):
    """a register that was set up by a request that is refused has its day and no agents"""
    ran = bor.exchange([request_of("raw GET /filings HTTP/1.1\\r\\n\\r\\n")], folder, DB)
    is_so(ran.status == 1, ran.told())
    rows = rows_of(folder, f"SELECT {COLUMNS['register']} FROM register")
    is_so(rows == [(1, 2, 19754, REGISTER[1])], f"register has {rows}")
    for table in ("agent", "filing", "statement", "interest", "identifier", "period"):
        is_so(rows_of(folder, f"SELECT * FROM {table}") == [], f"{table} has rows")
    ended(report(bor, folder), 1, "refused NoEntity\n")
