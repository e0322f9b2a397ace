"""docs/openapi.yaml, held against what the program tells, and its examples and its schema of a file against what is recorded."""
import itertools
import os
import tempfile
from collections import Counter
from concurrent.futures import ThreadPoolExecutor

from lib.bods_files import chance_files, fuzz_files
from lib.checking import DB, begun, changed, check, is_so
from lib.notation import request_of
from lib.openapi import PLACE, Document, Reply
from lib.openapi_examples import Examples, file_fault, is_fit, lodged, read_of, recorded, spoiled_files, words_fault
from lib.replies import replies_in
from lib.rows import all_rows, enrolments
from lib.schemas import fits
from lib.scripts import shown

from bods_rules import day_of

# What each operation asks for, of a register that has a value of no form where it looks.
SPOILED = [
    "alder lodge f1 2024-02-01 E s1 e1",
    "alder withdraw f1",
    "alder filings",
    "alder file f1",
    "alder published",
    "alder snapshot alder c1",
    "alder chains alder c1 e1",
    "alder evidence alder c1 e1",
    "alder entities X 1",
    "registrar day 2024-02-01",
    "registrar enrol cedar cedar-token-000001",
    "registrar renew birch cedar-token-000001",
    "registrar register",
]


class Held:
    """The document, and which of the refusals that it lists have come."""

    def __init__(self):
        self.document, self.came = Document(), set()

    def told(self, request, data, name):
        """Sees that the reply to a request is as the document has it."""
        key, responses = self.document.asked(request)
        reply = Reply(data)
        fault = self.document.reply_fault(key, responses, request, reply)
        is_so(fault is None, f"{name}: {request[:200]!r} is answered {shown(data)[:300]}: {fault}")
        if reply.status >= 400:
            self.came.add((key, reply.status, *reply.refusal()))

    def all_told(self, requests, replies, name):
        is_so(len(replies) == len(requests), f"{name}: {len(replies)} replies to {len(requests)} requests")
        for request, data in zip(requests, replies):
            self.told(request, data, name)


def replies_to(bor, requests):
    """What a new register in memory tells to the requests."""
    with tempfile.TemporaryDirectory(prefix="bor-document-") as folder:
        return replies_in(bor.exchange(requests, folder).output)


@check
def the_document_of_requests_holds(bor, folder):
    """docs/openapi.yaml lists each status, field and body that is told to the requests of the rows, and no refusal that none is told"""
    held = Held()
    rows = [(row.name, [it.request for it in enrolments() + row.exchanges()]) for row in all_rows()]
    with ThreadPoolExecutor(os.cpu_count()) as pool:
        for (name, requests), replies in zip(rows, pool.map(lambda row: replies_to(bor, row[1]), rows)):
            held.all_told(requests, replies, name)
    begun(bor, folder)
    changed(folder, "UPDATE agent SET name = 'Alder'; UPDATE register SET day = 99999999")
    changed(folder, "INSERT INTO agent (name, token) VALUES ('Cedar', 'cedar-token-000001')")
    requests = list(map(request_of, SPOILED))
    held.all_told(requests, replies_in(bor.exchange(requests, folder, DB).output), "a spoiled register")
    never = sorted(set(held.document.refusals()) - held.came, key=str)
    is_so(not never, f"{PLACE} lists what nobody is told: {never}")
    operations = dict(held.document.operations())
    is_so(len(operations) == 13, f"{PLACE} has {len(operations)} requests")


LONG = 1_000_000  # A longer reply takes seconds to hold against a document, and tells no other error.
# What is changed in the document, and what it is then to be told by.
PLANTED = [
    ("enum: [KeyReused, FilingsFull]", "enum: [KeyReused]"),
    ("required: [due, filing, key, state]", "required: [due, filing, key, state, note]"),
    ("refusal: {const: NoEntity}", "refusal: {enum: [NoEntity, NoAgent]}"),
    ("schema: {const: Bearer}", "schema: {const: Basic}"),
    ('        "201": {$ref: "#/components/responses/Filing"}\n', ""),
    ("minimum: 1\n          description: How far", "minimum: 2\n          description: How far"),
    ("enum: [agent, declaration, record, date]", "enum: [agent, declaration, record]"),
    ('pattern: "^[A-Za-z0-9._-]{1,64}$"', 'pattern: "^[a-z0-9]{1,64}$"'),
    ('schema: {enum: [GET, POST, PUT, "DELETE, PUT"]}', 'schema: {enum: [GET, POST, PUT, "PUT, DELETE"]}'),
    ('schema: {enum: [GET, POST, PUT, "DELETE, PUT"]}', 'schema: {enum: [GET, POST, "DELETE, PUT"]}'),
    ("required: [agent, published]", "required: [agent, drafts, published]"),
    ("refusal: {const: NoSuchAgent}", "refusal: {const: NoAgent}"),
    ("required: [agent, declaration, next, record, same]", "required: [agent, declaration, next, party, record, same]"),
    ("first, links, name, record]", "first, last, links, name, record]"),
    ("required: [date, entities, id, scheme]", "required: [date, entities, id, record, scheme]"),
    ("field: {enum: [scheme, id, date]}", "field: {enum: [scheme, date]}"),
    ("                    minItems: 1\n                    description: What the chains", "                    minItems: 2\n                    description: What the chains"),
]


@check
def a_wrong_document_is_found(bor, folder):
    """an error that is planted in docs/openapi.yaml is found by the recorded replies"""
    rows = [(row.name, it) for row in all_rows() for it in enrolments() + row.exchanges() if len(it.reply) < LONG]
    whole = Document()
    text = whole.text
    for right, wrong in PLANTED:
        is_so(text.count(right) == 1, f"{right!r} stands {text.count(right)} times in {PLACE}")
        document, came, fault = Document(text.replace(right, wrong)), set(), None
        for name, it in rows:
            key, responses = document.asked(it.request)
            reply = Reply(it.reply)
            fault = fault or document.reply_fault(key, responses, it.request, reply)
            if reply.status >= 400:
                came.add((key, reply.status, *reply.refusal()))
        more = set(document.refusals()) - came - {it for it in whole.refusals() if it[1] == 503}
        is_so(fault or more, f"{wrong!r} isn't found")


# ---- examples, and the schema of a file: these ask no program

SEED, CHANCE, FUZZED = 20240201, 150, 150
# The refusals of files of which some can be told by a schema, since they are of one value and not of several.
SAID = {"NotAList", "NoStatements", "TooMany", "Missing", "Bad", "TooLong", "Fraction", "ShareRange"}


@check
def each_example_is_recorded(_bor, _folder):
    """each request of docs/openapi.yaml and each kind of reply has examples, which fit their schema and stand in the rows or in examples/day"""
    fault = Examples(Document(), recorded()).fault()
    is_so(fault is None, fault)


@check
def the_schema_of_a_file_takes_what_is_taken(_bor, _folder):
    """each file of the rows that is taken fits its schema in docs/openapi.yaml, and none that is refused for what a schema can say"""
    document, refused = Document(), Counter()
    for data, refusal in lodged():
        fault = file_fault(document, data, refusal is None)
        is_so(fault is None, f"{refusal}: {fault}")
        refused[refusal] += not is_fit(document, read_of(data)[0])
    told = {name for name, count in refused.items() if count}
    is_so(SAID <= told and None not in told, f"the schema refuses files with these refusals: {told}")
    fault = words_fault(document)
    is_so(fault is None, fault)


@check
def the_schema_of_a_file_is_the_table(_bor, _folder):
    """the same, by the table of members, of a file with each part in turn left out or of another form, of hostile ones and ones by chance"""
    document = Document()
    for data in [*spoiled_files(), *chance_files(CHANCE, SEED), *fuzz_files(FUZZED, SEED)]:
        fault = file_fault(document, data)
        is_so(fault is None, fault)


@check
def the_pattern_of_a_day_is_the_calendar(_bor, _folder):
    """the pattern of a day in docs/openapi.yaml takes the days of the calendar, of leap years and others, and nothing else"""
    document, count = Document(), 0
    for year in (0, 4, 100, 400, 1600, 1900, 2000, 2012, *range(2021, 2029), 2096, 2100, 9996, 9999):
        for month, day in itertools.product(range(14), range(33)):
            for text in (f"{year:04}-{month:02}-{day:02}", f"{year:04}-{month:02}-{day:02}T\n", f"{year:04}-{month:02}-{day:02}Z"):
                told = fits(document.all, document.all["components"]["schemas"]["NamedDay"], text)
                is_so(told == (day_of(text) is not None), f"{text!r} is {'taken' if told else 'refused'}")
                count += told
    is_so(count > 10_000, f"{count} days")


# What is changed in the schema of a file, and what in an example or in a schema of one; each is then found without the program.
PLANTED_IN_FILES = [
    ("required: [subject, interestedParty]", "required: [subject]"),
    ("enum: [new, updated, closed, null]", "enum: [new, updated, closed]"),
    ("recordType: {const: person}", "recordType: {enum: [person, Person]}"),
    ("      minItems: 1\n      maxItems: 1000\n", "      minItems: 1\n      maxItems: 999\n"),
    ('type: [boolean, integer, "null"]', 'type: [boolean, integer]'),
    ("written without a point and without an exponent.\n      minimum: 0", "written without a point and without an exponent.\n      minimum: 1"),
    ("          not: {enum: [shareholding, votingRights, appointmentOfBoard]}\n", ""),
    ('[12][0-9]|3[01])(T|$)"', '[12][0-9]|3[01])$"'),
    ("recordType: {const: entity}", "recordType: {const: entity}\n        source: {type: object}"),
    ("      required: [type]\n", ""),
    ("[registeredEntity, legalEntity, arrangement, anonymousEntity, unknownEntity, state, stateBody]", "[registeredEntity, legalEntity]"),
    ('relationship: "#/components/schemas/RelationshipStatement"', 'relationship: "#/components/schemas/PersonStatement"'),
]
PLANTED_IN_EXAMPLES = [
    ("-(02-3|(0[469]|11)-31)|", "-(02|(0[469]|11)-31)|"),
    ("{personType: knownPerson, names: [{fullName: Ann Moss}]}", "{personType: knownPerson, names: [{fullName: Ann}]}"),
    ("          example: {due: \"2024-03-01\", filing: 1, state: withdrawn}", "          example: {due: \"2024-03-01\", filing: 1, state: draft}"),
    ("              example: {day: \"2024-03-01\"}\n", ""),
    ("          example: cedar\n", "          example: hazel\n"),
    ("                HasSuccessor: {value: {refusal: HasSuccessor}}\n", ""),
]


def planted(errors):
    """The document with each of the errors in turn, and what is wrong there."""
    text = Document().text
    for right, wrong in errors:
        is_so(text.count(right) == 1, f"{right!r} stands {text.count(right)} times in {PLACE}")
        yield Document(text.replace(right, wrong)), wrong


@check
def a_wrong_schema_of_a_file_is_found(_bor, _folder):
    """an error that is planted in the schema of a file of docs/openapi.yaml is found by the files of the rows and by spoiled ones"""
    files = [*((data, "spoiled") for data in spoiled_files()), *lodged()]
    for document, wrong in planted(PLANTED_IN_FILES):
        faults = (file_fault(document, data, refusal is None) for data, refusal in files)
        is_so(words_fault(document) or any(faults), f"{wrong!r} isn't found")


@check
def a_wrong_example_is_found(_bor, _folder):
    """an error that is planted in an example of docs/openapi.yaml is found by what is recorded"""
    exchanges = recorded()
    for document, wrong in planted(PLANTED_IN_EXAMPLES):
        is_so(Examples(document, exchanges).fault(), f"{wrong!r} isn't found")
