"""tools/bods: what it says of a file is what the program says of it, and what it makes of one is taken by the program.

Its checks work in Python for seconds, so they go one after the other, behind those that look at the clock.
"""
import json
import os
import re
import subprocess
import sys
from concurrent.futures import ThreadPoolExecutor
from fractions import Fraction
from pathlib import Path
from types import SimpleNamespace

from lib.bods_files import chance_files, fuzz_files, publisher_files, row_files
from lib.checking import DB, DAY, begun, exchange, is_so, outcome
from lib.notation import file_of, request
from lib.program import TOP
from lib.replies import replies_in

sys.path.append(str(TOP / "tools" / "lib"))

from bods_convert import Conversion, Unconverted
from bods_lint import Lint, json_of, text_lines
from bods_rules import FILE_LIMIT, STATEMENTS_LIMIT, points_of
from bods_shares import numeral, widened

SEED = 20240201
FUZZED, CHANCE, ALONE, PUBLISHED = 150, 250, 60, 150
TOKEN = "alder-token-000001"
BODS_CHECKS = []


def check(function):
    """Has the function checked; its first line says what it checks."""
    BODS_CHECKS.append(function)
    return function


def asked(bor):
    """How each check came out."""
    for function in BODS_CHECKS:
        yield outcome("bods", bor, function)


def tool(folder, *words, stdin=b"", **variables):
    """A run of tools/bods in a folder."""
    environment = {**os.environ, **variables}
    how = {"cwd": folder, "capture_output": True, "timeout": 60, "input": stdin, "check": False, "env": environment}
    ran = subprocess.run([sys.executable, TOP / "tools" / "bods", *map(str, words)], **how)
    is_so(b"Traceback" not in ran.stderr, f"{words}: {ran.stderr.decode(errors='replace')[-600:]}")
    return SimpleNamespace(status=ran.returncode, output=ran.stdout.decode(), errors=ran.stderr.decode())


# ---- the first fault


def first_line(bor, folder, data):
    """What `bor check` says of a file: its refusal, or None where it is taken."""
    ran = bor.run(["check"], folder, data)
    is_so(ran.status in (0, 1) and ran.output and not ran.errors, f"bor check: {ran.told()}")
    line = ran.output.decode().splitlines()[0]
    return line.removeprefix("refused ") if ran.status else None


def first_lines(bor, folder, files):
    """The same of each file, asked side by side."""
    with ThreadPoolExecutor(os.cpu_count()) as pool:
        yield from pool.map(lambda data: first_line(bor, folder, data), files)


def first_faults(bor, folder, files):
    """Holds the first fault of each file against the program's."""
    for data, wanted in zip(files, first_lines(bor, folder, files)):
        found = Lint(data)
        is_so(found.refusal() == wanted, f"lint says {found.refusal()}, and bor check {wanted} of {data[:1000]!r}")
        lines = list(text_lines("FILE", found))
        is_so((lines[0] == f"refused {wanted}") == bool(wanted), f"the first line is {lines[0]}")
        json.dumps(json_of("FILE", found))


@check
def first_faults_of_rows(bor, folder):
    """tools/bods lint names the fault that bor check prints first, of the files of the rows"""
    first_faults(bor, folder, row_files())


@check
def first_faults_of_hostile_files(bor, folder):
    """the same of hostile files"""
    first_faults(bor, folder, fuzz_files(FUZZED, SEED))


@check
def first_faults_by_chance(bor, folder):
    """the same of files by chance, most of them spoiled at several places"""
    first_faults(bor, folder, chance_files(CHANCE, SEED))


# Shares by bounds that Python takes for equal, and numerals that are none of whole numbers.
SHARES = ['{"minimum":100,"exclusiveMinimum":1}', '{"minimum":100,"exclusiveMinimum":true}', '{"maximum":1,"exclusiveMaximum":1}']
SHARES += ['{"maximum":0,"exclusiveMaximum":false}', '{"maximum":0,"exclusiveMaximum":true}', '{"exact":-0}', '{"exact":0}', '{"exact":1.0}']


@check
def first_faults_of_shares(bor, folder):
    """the same of shares that are alike"""
    first_faults(bor, folder, [file_of(f"E s1 e1; P s2 p1; R s3 r1 e1<-p1 V{share}") for share in [*SHARES, *SHARES[::-1]]])


READING = ["Missing", "Bad", "TooLong", "Fraction", "ShareRange", "EmptyShare"]


@check
def each_statement_has_its_first_fault(bor, folder):
    """of each statement of a spoiled file the first fault that is told is the one that bor check prints of it alone"""
    count = 0
    for data in chance_files(ALONE, SEED + 1):
        found = Lint(data)
        if found.file.shape != "array":
            continue
        alone = first_lines(bor, folder, [json.dumps([value]).encode() for value in found.file.value])
        for place, (value, wanted) in enumerate(zip(found.file.value, alone), 1):
            told = next((it for it in found.faults if it.place == place and it.name in READING), None)
            wanted = wanted if wanted and wanted.split(" ")[0] in READING else ""
            head = f"{told.name} at 1{f' in {told.field}' if told.field else ''}" if told else ""
            is_so(head == wanted, f"lint says {head} and bor check {wanted} of {value}")
            count += bool(told)
    is_so(count > ALONE / 2, f"{count} faults")


# ---- all faults and warnings

ENTITY = '{"statementId":"s1","statementDate":"2024-01-10","declarationSubject":"c1","recordId":"e1","recordType":"entity",'
SPOILED = f"""[
 {ENTITY}"recordDetails":{{"entityType":{{"type":"registeredEntity"}},"name":"A"}}}},
 {{"statementId":"s2","statementDate":"2024-1-10","declarationSubject":"c1","recordId":7,"recordType":"person",
  "recordStatus":"old","recordDetails":{{"personType":"knownPerson","names":[{{"fullName":"B"}}]}}}},
 {{"statementId":"s3","statementDate":"2024-01-10","declarationSubject":"c1","recordId":"r1","recordType":"relationship",
  "recordDetails":{{"subject":"e1","interests":[{{"type":"votingRights","share":{{"exact":33.33,"minimum":101}}}},
   {{"type":"otherInfluenceOrControl","share":{{"exact":0.5}}}},7,
   {{"type":"shareholding","share":{{"minimum":60,"maximum":50}}}}]}}}},
 {ENTITY}"recordStatus":"updated","recordDetails":{{"identifiers":{{}}}}}},
 {{"statementId":"s5","statementDate":"2024-01-09","declarationSubject":"c1","recordId":"e1","recordType":"person","recordDetails":{{}}}}
]
"""
FAULTS = [
    ("Bad at 2 in statementDate", 3, 38, "/1/statementDate", None, '"2024-01-10"'),
    ("Bad at 2 in recordId", 3, 87, "/1/recordId", None, '"7"'),
    ("Bad at 2 in recordStatus", 4, 18, "/1/recordStatus", None, '"new" or "updated" or "closed"'),
    ("Missing at 3 in interestedParty", 6, 19, "/2/recordDetails", None, None),
    ("Fraction at 3", 6, 88, "/2/recordDetails/interests/0/share/exact", 1, None),
    ("ShareRange at 3", 6, 104, "/2/recordDetails/interests/0/share/minimum", 1, None),
    ("Bad at 3 in interests", 7, 61, "/2/recordDetails/interests/2", 3, '{"type":..}'),
    ("EmptyShare at 3", 8, 35, "/2/recordDetails/interests/3/share", 4, None),
    ("Bad at 4 in identifiers", 9, 171, "/3/recordDetails/identifiers", None, "[{}]"),
    ("StatementTwice at 4", 9, 17, "/3/statementId", None, None),
    ("TypeChanged at 5", 10, 106, "/4/recordType", None, None),
    ("DateBack at 5", 10, 38, "/4/statementDate", None, None),
]


@check
def all_faults_are_told(_bor, folder):
    """tools/bods lint tells all faults of a file in the register's order, each with its place and what to write"""
    ran = tool(folder, "lint", "--json", "-", stdin=SPOILED.encode())
    found = json.loads(ran.output)
    is_so(ran.status == 1 and found["refused"] == FAULTS[0][0] and found["statements"] == 5, f"{ran.status} {found}")
    for wanted, it in zip(FAULTS, found["faults"]):
        place, field = f" at {it['place']}" if it["place"] else "", f" in {it['field']}" if it["field"] else ""
        told = (f"{it['name']}{place}{field}", it["line"], it["column"], it["pointer"], it["interest"])
        is_so(told == wanted[:5], f"wanted {wanted[:5]}, told {told}")
        is_so(wanted[5] in (None, it["write"]), f"wanted {wanted[5]}, told {it['write']}")
    is_so(len(found["faults"]) == len(FAULTS), f"{len(found['faults'])} faults")
    lines = tool(folder, "lint", "-", stdin=SPOILED.encode()).output.splitlines()
    is_so(lines[0] == f"refused {FAULTS[0][0]}", lines[0])
    is_so(lines[1] == "standard input:3:38: Bad at 2 in statementDate /1/statementDate", lines[1])


# What a file says, the warning of it, and a word of what it says or has one write.
WARNED = [
    ('E s1 e1 RegisteredEntity', "UnknownWord", '"registeredEntity"'),
    ('P s1 p1; R s2 r1 e1<-p1 V60', "EndNotStated", '"e1"'),
    ('E s1 e1; P s2 p1; R s3 r1 e1<-s2 V60', "EndNotStated", 'write "p1"'),
    ('E s1 e1; E s2 e2; R s3 r1 e1<-e1 V60,"directOrIndirect":"indirect"', "Indirect", "componentRecords"),
    ('E s1 e1; E s2 e2; P s3 p1; R s4 r1 e1<-e2 S100; R s5 r2 e2<-p1 S100', "SharesWithoutVotes", "votingRights"),
    ('E s1 e1; E s2 t1 arrangement; P s3 p1; R s4 r1 e1<-t1 V100; R s5 r2 t1<-p1 V100', "Trust", "arrangement"),
    ('E s1 e1; P s2 p1; R s3 r1 e1<-p1 V60,"beneficialOwnershipOrControl":false', "NotBeneficial", "p1"),
    ('E s1 e1; P s2 p1; R s3 r1 e1<-p1 V60,"startDate":"01/02/2024"', "DateNotRead", "startDate"),
    ('E s1 e1; P s2 p1; R s3 r1 e1<-p1 V60,"directOrIndirect":"Indirect"', "UnknownWord", '"indirect"'),
    ('E s1 e1; E s2 e1 +closed; P s3 p1; R s4 r1 e1<-p1 V60', "EndMakesNoLink", "closed"),
    ('E s1 e1; E s2 g1 state; P s3 p1; R s4 r1 e1<-g1 V100; R s5 r2 g1<-p1 V100', "NoChainThrough", "state"),
    ('E s1 e1; P s2 p1; R s3 r1 e1<-p1', "NoHolding", "interests"),
]
NAMES = '[{"statementId":"s1","statementDate":"2024-01-10","declarationSubject":"c1","recordId":"x1","recordType":"%s","recordDetails":%s}]'
WARNED_DETAILS = [
    ("entity", '{"entityType":{"type":"state"},"name":"A","identifiers":[{"schemeName":"X","id":"1"}]}', "IdentifierPassedOver", "scheme"),
    ("entity", '{"entityType":{"type":"state"},"name":"A","identifiers":[{"scheme":"X","id":10}]}', "IdentifierPassedOver", '"id":"10"'),
    ("person", '{"personType":"knownPerson","names":[{"givenName":"Ann","familyName":"Moss"}]}', "NameNotShown", '"Ann Moss"'),
    ("person", '{"personType":"KnownPerson","names":[{"fullName":"A"}]}', "UnknownWord", '"knownPerson"'),
    ("relationship", '{"subject":{"describedByEntityStatement":"s1"},"interestedParty":"x"}', "EndMakesNoLink", '"x1"'),
    ("relationship", '{"subject":"e","interestedParty":"p","interests":[{"type":"Shareholding","share":{"exact":0.5}}]}', "ShareNotRead", "Fraction"),
    ("relationship", '{"subject":"e","interestedParty":"p","interests":[{"type":"nominator"}]}', "Nominee", "nominator"),
    ("relationship", '{"subject":"e","interestedParty":"p","interests":[{"type":"settlor"}]}', "Trust", "settlor"),
    ("relationship", '{"subject":"e","interestedParty":"p","interests":[{"type":"boardMember"}]}', "NotCounted", "boardMember"),
    ("person", '{"personType":"knownPerson","names":[{"type":"former","fullName":"A"},{"type":"legal","fullName":"B"}]}', "OtherNameShown", '"B"'),
    ("person", '{"personType":"knownPerson","names":[{"fullName":"A"}],"names":[{"fullName":"B"}]}', "MemberTwice", "names"),
]


@check
def warnings_are_told(_bor, _folder):
    """what is taken and won't count is told by its name; a file without any of it has no warning"""
    files = [(file_of(file), name, word) for file, name, word in WARNED]
    files += [((NAMES % (kind, details)).encode(), name, word) for kind, details, name, word in WARNED_DETAILS]
    for data, name, word in files:
        found = [f"{it.says} write {it.write}" for it in Lint(data).warnings if it.name == name]
        is_so(any(word in it for it in found), f"{name} with {word} isn't told of {data.decode()}: {found}")
    page = re.findall(r"^- (`\w+`(?:, `\w+`)*): ", (TOP / "docs" / "BODS.md").read_text(), re.M)
    listed = {name for line in page for name in re.findall(r"\w+", line)}
    is_so(listed == {name for _, name, _ in files} | {"DueNoEarlier"}, f"the page lists {listed}")
    statements = json.loads(file_of("E s1 e1; P s2 p1; R s3 r1 e1<-p1 V60"))
    statements[1]["declarationSubject"] = "c2"
    told = [it.write for it in Lint(json.dumps(statements).encode()).warnings if it.name == "EndNotStated"]
    is_so(len(told) == 1 and '"c2" has the record' in told[0], f"{told}")
    first = Lint((TOP / "examples" / "first-lodging.json").read_bytes())
    is_so(not first.faults and not first.warnings, f"{first.faults} {first.warnings}")


@check
def a_nominator_is_told_with_who_is_named(_bor, _folder):
    """of a nominee's arrangement it is told who is named instead of the nominator"""
    statements = json.loads(file_of('E s1 e1; E s2 n1 arrangement; P s3 p1; P s4 p2; R s5 r1 e1<-p1 V60; R s6 r2 n1<-p1; R s7 r3 n1<-p2'))
    statements[5]["recordDetails"]["interests"] = [{"type": "nominee"}]
    statements[6]["recordDetails"]["interests"] = [{"type": "nominator"}]
    told = [it.says for it in Lint(json.dumps(statements).encode()).warnings if it.name == "Nominee"]
    is_so(any('nominator record "p2" isn\'t found' in it and 'record "p1"' in it for it in told), f"{told}")


# ---- conversions


def words(**more):
    return SimpleNamespace(**{"to": "converted", "together": False, "widen": True, "declaration": None, "json": False, "force": False, **more})


def converted(sources, live=None, **more):
    """The conversion, or None where something would be refused."""
    try:
        return Conversion(sources, live, words(**more))
    except Unconverted as fault:
        is_so(fault.lines[-1].endswith("nothing is written"), f"{fault.lines}")
        return None


def made(sources):
    """The files of a conversion that has to be made, of one source."""
    found = converted(sources)
    is_so(found is not None, f"nothing is made of {sources!r:.300}")
    (parts,) = found.parts
    return parts


def differing(one, other, path=""):
    """The pointers at which two values of JSON differ."""
    if isinstance(one, dict) and isinstance(other, dict):
        for name in {*one, *other}:
            yield from differing(one.get(name), other.get(name), f"{path}/{name}")
    elif isinstance(one, list) and isinstance(other, list) and len(one) == len(other):
        for at, (left, right) in enumerate(zip(one, other)):
            yield from differing(left, right, f"{path}/{at}")
    elif json.dumps(one) != json.dumps(other):
        yield path


def told_of(item):
    """What differs in a statement and is no change that is told."""
    file = item.source.file
    prefix = "" if file.shape == "single" else "".join(f"/{it}" for it in [*file.prefix, item.place - 1])
    told = [it.pointer.removeprefix(prefix) for it in item.changes]
    return [it for it in differing(item.value, item.became) if not any(it.startswith(pointer) for pointer in told)]


def all_taken(bor, folder, files):
    """Holds what is made of each file against the program, and gives how many were converted."""
    taken = 0
    for form, data in files:
        found = converted([("FILE", data)])
        if found is None:
            continue
        (parts,) = found.parts
        is_so(len(parts) == 1, f"{len(parts)} files")
        refused = first_line(bor, folder, parts[0].data)
        is_so(refused is None, f"{form}: {refused} of {parts[0].data[:600]!r}, which was {data[:600]!r}")
        values = json.loads(parts[0].data)
        is_so(len(values) == len(found.all), f"{form}: {len(values)} statements of {len(found.all)}")
        in_order(values)
        for item in found.all:
            is_so(not told_of(item), f"{form}: no change tells of {told_of(item)} in {item.value}")
        taken += 1
    return taken


@check
def what_is_converted_is_taken(bor, folder):
    """each file that tools/bods convert makes is taken by bor check, has all statements, and each change of one is told"""
    taken = all_taken(bor, folder, publisher_files(PUBLISHED, SEED))
    is_so(taken > PUBLISHED / 2, f"{taken} of {PUBLISHED} were converted")


def in_order(values):
    """No relationship stands before the first statement of an entity or a person to which it refers."""
    first, wanted = {}, []
    for at, it in enumerate(values):
        if it["recordType"] == "relationship":
            ends = [it["recordDetails"].get(name) for name in ("subject", "interestedParty")]
            wanted += [(at, it["declarationSubject"], end) for end in ends if isinstance(end, str)]
        else:
            first.setdefault((it["declarationSubject"], it["recordId"]), at)
    late = [it for it in wanted if first.get(it[1:], -1) > it[0]]
    is_so(not late, f"{late} stand before what they refer to")


@check
def what_needs_nothing_stays(_bor, _folder):
    """a file that needs no change comes out byte for byte; where its order has to change, with the same bytes in another one"""
    count = 0
    for data in row_files():
        found = Lint(data)
        if found.faults or data[:1] == b" ":
            continue
        (part,) = made([("FILE", data)])
        is_same_order = [item.place for item in part.items] == list(range(1, len(part.items) + 1))
        is_so(not any(item.changes for item in part.items), f"something is changed in {data[:300]!r}")
        is_so(part.data == data if is_same_order else sorted(part.data) == sorted(data), f"{part.data[:300]!r} of {data[:300]!r}")
        count += is_same_order
    is_so(count > 100, f"{count} files stay")


def a_country(count, filling):
    """So many companies, each with its person and its relationship, which come first."""
    found = []
    for at in range(count):
        statements = json.loads(file_of(f"R r{at} r{at} e{at}<-p{at} V75; E e{at} e{at}; P p{at} p{at} in c{at}"))
        statements[1]["annotations"] = ["x" * filling]
        found += statements
    return found


@check
def large_files_are_parted(bor, folder):
    """more statements, or more bytes, than a file may have are parted between what hangs together, and all of it is lodged"""
    for count, filling, least in ((500, 0, 2), (200, 9000, 2)):
        statements = a_country(count, filling)
        parts = made([("FILE", "\n".join(map(json.dumps, statements)).encode())])
        sizes = [(len(it.items), len(it.data)) for it in parts]
        is_so(len(parts) == least and all(a <= STATEMENTS_LIMIT and b <= FILE_LIMIT for a, b in sizes), f"{sizes}")
        for part in parts:
            values = json.loads(part.data)
            in_order(values)
            records = {it["recordId"] for it in values}
            ends = {it["recordDetails"][name] for it in values if it["recordType"] == "relationship" for name in ("subject", "interestedParty")}
            is_so(ends <= records, "a relationship is torn from its ends")
            is_so(first_line(bor, folder, part.data) is None, "a file is refused")
        is_so(sum(a for a, _ in sizes) == len(statements), f"{sizes}")


@check
def what_is_larger_than_a_file_is_torn_in_order(bor, folder):
    """what hangs together and is larger than a file is torn, and its files are taken one after the other"""
    statements = json.loads(file_of("E e e0" + "".join(f"; P p{at} p{at}; R r{at} r{at} e0<-p{at} S1" for at in range(700))))
    parts = made([("FILE", json.dumps(statements[::-1]).encode())])
    begun(bor, folder)
    requests = [request("alder", "PUT", f"/filings/k{at}?due={DAY}", part.data) for at, part in enumerate(parts)]
    replies = replies_in(bor.exchange(requests, folder, DB).output)
    is_so(len(parts) == 2 and all(it.startswith(b"HTTP/1.1 201 ") for it in replies), f"{len(parts)} files, {replies}")


@check
def a_widened_share_is_the_smallest(_bor, _folder):
    """of each share with a fraction the whole range that is written holds it, and no smaller one does"""
    texts = ["0.5", "33.33", "49.99", "50", "50.01", "99.9", "1e-30", "25.0", "0", "100"]
    numbers = {it: numeral(it) for it in texts}
    for low in texts:
        found = widened({"exact": numbers[low]})
        if found and "exact" not in found:
            whole = int(numbers[low])
            is_so(found == {"exclusiveMinimum": whole, "exclusiveMaximum": whole + 1}, f"{low}: {found}")
        for high in texts:
            bounds = {"minimum": numbers[low], "exclusiveMaximum": numbers[high]}
            found = widened(bounds)
            if found and numbers[low] < numbers[high]:
                is_smallest(Fraction(numbers[low]), Fraction(numbers[high]), found, f"{low} to below {high}: {found}")


def is_smallest(low, high, found, text):
    """The range holds all from low, itself too, to below high, and each whole end nearer to it doesn't."""
    below, above = found.get("minimum", found.get("exclusiveMinimum")), found["exclusiveMaximum"]
    is_open = "exclusiveMinimum" in found
    is_so(below < low if is_open else below == low, text)
    is_so(not is_open or below + 1 > low, text)
    is_so(above >= high and above - 1 < high, text)
    is_so(len(points_of(found)) > 0, text)


OLD = """{"statementID":"o3","statementType":"ownershipOrControlStatement","statementDate":"2020-01-10","subject":{"describedByEntityStatement":"o1"},"interestedParty":{"describedByPersonStatement":"o2"},"interests":[{"type":"voting-rights","interestLevel":"direct","share":{"exact":75.0}}],"publicationDetails":{"bodsVersion":"0.2"}}
{"statementID":"o1","statementType":"entityStatement","statementDate":"2020-01-10","entityType":"registeredEntity","name":"Alder Ltd","identifiers":[{"scheme":"GB-COH","id":"1"}]}
{"statementID":"o2","statementType":"personStatement","statementDate":"2020-01-10","personType":"knownPerson","names":[{"fullName":"Ann Moss"}]}
"""
LATER = """{"statementID":"o5","statementType":"entityStatement","statementDate":"2021-01-10","replacesStatements":["o1"],"entityType":"registeredEntity","entitySubtype":{"generalCategory":"other"},"name":"Alder plc"}
{"statementID":"o4","statementType":"ownershipOrControlStatement","statementDate":"2021-01-10","subject":{"describedByEntityStatement":"o1"},"interestedParty":{"describedByPersonStatement":"o2"},"replacesStatements":["o3"],"interests":[{"type":"votingRights","share":{"exact":"60"}}]}
{"statementID":"o7","statementType":"ownershipOrControlStatement","statementDate":"2021-01-10","subject":{"describedByEntityStatement":"o5"},"interestedParty":{"unspecified":{"reason":"unknown"}}}
"""
NEW = """[
{"statementId":"o1","declarationSubject":"o1","statementDate":"2020-01-10","recordId":"o1","recordStatus":"new","recordType":"entity","recordDetails":{"entityType":{"type":"registeredEntity"},"name":"Alder Ltd","identifiers":[{"scheme":"GB-COH","id":"1"}]}},
{"statementId":"o2","declarationSubject":"o1","statementDate":"2020-01-10","recordId":"o2","recordStatus":"new","recordType":"person","recordDetails":{"personType":"knownPerson","names":[{"fullName":"Ann Moss"}]}},
{"statementId":"o3","declarationSubject":"o1","statementDate":"2020-01-10","publicationDetails":{"bodsVersion":"0.4"},"recordId":"o3","recordStatus":"new","recordType":"relationship","recordDetails":{"subject":"o1","interestedParty":"o2","interests":[{"type":"votingRights","directOrIndirect":"direct","share":{"exact":75}}]}}
]
"""
UPDATE = """[
{"statementId":"o5","declarationSubject":"o1","statementDate":"2021-01-10","recordId":"o1","recordStatus":"updated","recordType":"entity","recordDetails":{"entityType":{"type":"registeredEntity","subtype":"other"},"name":"Alder plc"}},
{"statementId":"o4","declarationSubject":"o1","statementDate":"2021-01-10","recordId":"o3","recordStatus":"updated","recordType":"relationship","recordDetails":{"subject":"o1","interestedParty":"o2","interests":[{"type":"votingRights","share":{"exact":60}}]}},
{"statementId":"o7","declarationSubject":"o1","statementDate":"2021-01-10","recordId":"o7","recordStatus":"new","recordType":"relationship","recordDetails":{"subject":"o1","interestedParty":{"reason":"unknown"}}}
]
"""


@check
def older_statements_become_newer_ones(_bor, folder):
    """statements of BODS 0.2 become those of 0.4 that are worked by hand, and the report tells what was done"""
    Path(folder, "first.jsonl").write_text(OLD)
    ran = tool(folder, "convert", "first.jsonl")
    is_so(ran.status == 0 and Path(folder, "converted/first.json").read_text() == NEW, f"{ran}")
    report = Path(folder, "converted/first-report.txt").read_text()
    for told in ("75.0 to 75", '"voting-rights" to "votingRights"', "interestLevel to directOrIndirect", "JsonLines", "Order"):
        is_so(told in report, f"{told} isn't in {report}")
    parts = made([("FILE", (OLD + LATER).encode())])
    wanted = f"{NEW[:-3]},\n{UPDATE[2:]}"
    is_so(parts[0].data.decode() == wanted, f"wanted {wanted}, told {parts[0].data.decode()}")


OLD_ENTITY = '{"statementID":"o8","statementType":"entityStatement",%s"entityType":"registeredEntity","name":"A"}\n'
DATED = '"statementDate":"2021-01-10",'
# What a publisher writes, and what is told of it or stands in what is made of it.
PUBLISHED_FORMS = [
    (OLD_ENTITY % "", 'there is no statementDate\n  write "statementDate":"YYYY-MM-DD"'),
    (OLD_ENTITY % f'{DATED}"replacesStatements":["o0"],', 'RecordUnknown at 1 /replacesStatements\n  statement 1 "o8": it replaces ["o0"], which is in none'),
    (OLD + OLD_ENTITY % f'{DATED}"replacesStatements":"o1",', '"recordId":"o1","recordStatus":"updated"'),
    (OLD_ENTITY % f'{DATED}"entitySubtype":{{"generalCategory":"state-body","localTerm":"x"}},', '{"type":"registeredEntity","subtype":"body","details":"x"}'),
    (OLD_ENTITY % f'{DATED}"entitySubtype":"limited",', '"entitySubtype":"limited"'),
    (OLD.replace("75.0", '"75%"'), '"exact":75}'),
    (OLD.replace("75.0", '"75.5 %"'), '"exclusiveMinimum":75,"exclusiveMaximum":76}'),
    (OLD_ENTITY % '"statementDate":"2020",' + OLD_ENTITY.replace("o8", "o9") % f'{DATED}"replacesStatements":["o8"],', "with the day\n1 fault"),
    (OLD_ENTITY.replace("entityStatement", "Entity") % DATED, 'statementType is "Entity", and none of BODS 0.3\n  write "entityStatement" or'),
    (file_of("E s2 e1 @2024-01-12 +updated; E s3 e1 @2024-01-13 +closed; E s1 e1 +new").decode(), '[{"statementId":"s1"'),
    (file_of("E s2 e1 @2024-01-12; E s1 e1").decode(), '[{"statementId":"s1"'),
    (file_of("E s1 e1 @2024-01-10Z").decode(), 'write "2024-01-10"'),
    (file_of('E s1 e1; P s2 p1; R s3 r1 e1<-p1 V{"minimum":"25","exclusiveMinimum":"true"}').decode(), '{"minimum":25,"exclusiveMinimum":true}'),
    (file_of('E s1 e1; P s2 p1; R s3 r1 e1<-p1 V{"minimum":"true"}').decode(), '"true" is no number'),
    (OLD_ENTITY.replace('"o8"', "8") % DATED, '/statementID\n  statement 1: it is a number, and has to be a text\n  write "8"\n1 fault'),
    ('{"results":[{"statementID":"o1"}],"errors":[{"message":"x"}]}', "write the list of the statements alone"),
]


@check
def what_publishers_write_is_read(_bor, _folder):
    """forms that publishers write become what they mean, or it is told what to write"""
    for source, wanted in PUBLISHED_FORMS:
        try:
            (parts,) = Conversion([("FILE", source.encode())], None, words()).parts
            told = parts[0].data.decode()
        except Unconverted as fault:
            told = "\n".join(fault.lines)
        is_so(wanted in told, f"{wanted} isn't in {told}, of {source}")


@check
def a_register_is_asked(bor, folder):
    """what a register has is left out and gone on from, and lint says what the register would"""
    begun(bor, folder)
    Path(folder, "first.json").write_text(NEW)
    Path(folder, "both.jsonl").write_text(OLD + LATER)
    Path(folder, "token").write_text(f"{TOKEN}\n")
    exchange(bor, folder, [("alder lodge f1 2024-03-01 " + NEW.replace("\n", ""), "201 F(1, draft, 2024-03-01)")])
    server = bor.serve(folder, DB, 1000)
    try:
        against = ["--against", f"http://127.0.0.1:{server.port}", "--token-file", "token"]
        ran = tool(folder, "convert", *against, "both.jsonl")
        is_so(ran.status == 0 and "3 statements left out" in ran.output, f"{ran}")
        is_so(Path(folder, "converted/both.json").read_text() == UPDATE, Path(folder, "converted/both.json").read_text())
        ran = tool(folder, "lint", "--json", *against, "converted/both.json")
        names = [it["name"] for it in json.loads(ran.output)["warnings"]]
        is_so(ran.status == 0 and names == ["EndMakesNoLink", "NoHolding", "DueNoEarlier", "DueNoEarlier"], f"{ran}")
        ran = tool(folder, "lint", *against, "first.json")
        is_so(ran.status == 1 and ran.output.startswith("refused StatementTwice at 1\n"), f"{ran}")
        due = request("alder", "PUT", "/filings/f2?due=2024-03-01", Path(folder, "converted/both.json").read_bytes())
        is_so(server.ask(due).startswith(b"HTTP/1.1 201 "), "the update isn't taken")
        for variables, said in (({"BOR_TOKEN": "nobody-token-0001"}, "401 NoAgent"), ({"BOR_TOKEN": "registrar-token-0001"}, "403 NotAgent")):
            ran = tool(folder, "lint", *against[:2], "first.json", **variables)
            is_so(ran.status == 3 and said in ran.errors and variables["BOR_TOKEN"] not in ran.errors, f"{ran}")
    finally:
        server.stop()
    ran = tool(folder, "lint", *against, "first.json")
    is_so(ran.status == 3 and "cannot reach" in ran.errors, f"{ran}")


# ---- what is wrong is told

# A file's bytes and what is told of it by both.
HOSTILE = {
    "empty.json": b"",
    "page.html": b"<!DOCTYPE html>",
    "packed.json.gz": b"\x1f\x8b\x08\x00",
    "latin.json": b'[{"name":"Caf\xe9"}]',
    "deep.json": b"[" * 200_000,
    "half.json": b'["\\ud800"]',
    "number.json": b"[1e400]",
    "null.json": b"null",
    "mark.json": b"\xef\xbb\xbf",
    "wide.json": b"\xff\xfe\x00",
    "lines.jsonl": b'{"statementId":"s1"}\n{"statementId":}\n',
    "list.json": b"[[[]],7,null,{}]",
}


@check
def bad_files_are_told(bor, folder):
    """files that nobody can read, words that are wrong and files that aren't there are told with their status and no traceback"""
    for name, data in HOSTILE.items():
        wanted = first_line(bor, folder, data)
        is_so(Lint(data).refusal() == wanted, f"{name}: wanted {wanted}, told {Lint(data).refusal()}")
        is_so(converted([(name, data)]) is None, f"{name}: it is converted")
    for name in ("packed.json.gz", "lines.jsonl", "list.json"):
        Path(folder, name).write_bytes(HOSTILE[name])
        lint, made = tool(folder, "lint", name), tool(folder, "convert", name)
        wanted = f"refused {first_line(bor, folder, HOSTILE[name])}"
        is_so(lint.status == 1 and lint.output.splitlines()[0] == wanted, f"{name}: wanted {wanted}, told {lint}")
        is_so(made.status == 1 and made.output.endswith("nothing is written\n"), f"{name}: {made}")
    is_so(not Path(folder, "converted").exists(), "something is written")
    for status, *given in ((2,), (2, "convert"), (2, "mend", "x"), (2, "lint", "--no", "x"), (3, "lint", "none.json")):
        is_so(tool(folder, *given).status == status, f"{given} doesn't end with status {status}")
    for given in (["lint", "--against", "ftp://x", "list.json"], ["lint", "--against", "http://127.0.0.1:1", "list.json"]):
        is_so(tool(folder, *given, BOR_TOKEN=TOKEN).status == 3, f"{given}")
    is_so(tool(folder, "lint", "--against", "http://127.0.0.1:1", "list.json").status == 3, "no token is asked for")
    is_so(all(tool(folder, *given).status == 0 for given in (["--help"], ["convert", "--help"])), "no help")


@check
def nothing_is_overwritten(_bor, folder):
    """files that are there stay unless --force is said, and what another conversion left isn't mistaken for this one's"""
    Path(folder, "a.json").write_bytes(file_of("E s1 e1; P s2 p1; R s3 r1 e1<-p1 V60.0"))
    made = Path(folder, "converted", "a.json")
    is_so(tool(folder, "convert", "a.json").status == 0, "it isn't converted")
    made.write_text("mine")
    ran = tool(folder, "convert", "a.json")
    is_so(ran.status == 3 and "is there already" in ran.errors and made.read_text() == "mine", f"{ran}")
    is_so(tool(folder, "convert", "--force", "a.json").status == 0 and made.read_bytes() != b"mine", "it isn't written over")
    Path(folder, "converted", "a-002.json").write_text("left")
    ran = tool(folder, "convert", "--force", "a.json")
    is_so(ran.status == 3 and "a-002.json is left" in ran.errors, f"{ran}")
    ran = tool(folder, "convert", "--to", "a.json", "a.json")
    is_so(ran.status == 3 and "cannot write" in ran.errors, f"{ran}")
    ran = tool(folder, "convert", "--to", ".", "--force", "a.json")
    is_so(ran.status == 3 and "would be written over" in ran.errors, f"{ran}")
    Path(folder, "b").mkdir()
    Path(folder, "b", "a.json").write_bytes(b"[]")
    ran = tool(folder, "convert", "a.json", "b/a.json")
    is_so(ran.status == 3 and "two files would be written as a" in ran.errors, f"{ran}")


@check
def the_page_tells_what_comes(_bor, folder):
    """the commands of docs/BODS.md that ask no register tell what stands below them"""
    for name in ("tools", "examples"):
        Path(folder, name).symlink_to(TOP / name)
    blocks = re.findall(r"```sh\n(\$ .*?)```", (TOP / "docs" / "BODS.md").read_text(), re.DOTALL)
    asked = [it.partition("\n") for block in blocks for it in block.removeprefix("$ ").split("\n$ ")]
    for command, _, wanted in asked:
        if "--against" not in command:
            how = {"shell": True, "cwd": folder, "capture_output": True, "text": True, "timeout": 60, "check": False}
            told = subprocess.run(command, **how)
            is_so((told.stdout.strip(), told.stderr) == (wanted.strip(), ""), f"{command}: wanted {wanted}, told {told}")
    is_so(len(asked) >= 4, f"{len(asked)} commands")
