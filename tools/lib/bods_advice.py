"""What is wrong in a file, fault by fault, and what to write in its place."""
import difflib
import re

from bods_file import CONVERTS
from bods_json import written
from bods_rules import BOUNDS, FILE_LIMIT, ITEMS_LIMIT, STATEMENTS_LIMIT, STATUSES, TYPES, day_of, is_object, member
from bods_shares import is_whole, numeral, percent, truth_meant, whole_text, widened

IDENTS = ["statementId", "declarationSubject", "recordId"]
OLD_TYPES = {"entityStatement": "entity", "personStatement": "person", "ownershipOrControlStatement": "relationship"}
OLD_MEMBERS = ["statementID", "statementType"]
# Members of BODS 0.4 that no other one is mistaken for.
KNOWN = ["recordStatus", "declaration", "publicationDetails", "source", "annotations", "interests", "componentRecords", "isComponent"]
MEMBERS = {
    "statementId": '"statementId":"..", an identifier that no other statement of yours has',
    "statementDate": '"statementDate":"YYYY-MM-DD", the day of the statement',
    "declarationSubject": '"declarationSubject":"..", the recordId of what the declaration is about',
    "recordId": '"recordId":"..", which stays the same in each statement of the record',
    "recordType": '"recordType":"entity", "person" or "relationship"',
    "recordDetails": '"recordDetails":{..}',
    "subject": '"subject":"..", the recordId of the entity that is held',
    "interestedParty": '"interestedParty":"..", the recordId of the holder, or an object where there is none',
}


def shown(value, length=60):
    """A value in one line, cut short where it is long."""
    text = written(value)
    return text if len(text) <= length else f"{text[:length]}.."


def nearest(word, words):
    """The word that is meant, as far as that can be guessed."""
    if not isinstance(word, str):
        return None
    plain = {re.sub(r"[\W_]", "", it).lower(): it for it in words}
    key = re.sub(r"[\W_]", "", word).lower()
    found = difflib.get_close_matches(key, plain, 1, 0.75)
    return plain[key] if key in plain else plain[found[0]] if found else None


# ---- the file


def too_large(_fault, file):
    return f"the file has {file.size:,} bytes, and {FILE_LIMIT:,} are the most", f"several files{CONVERTS}"


def not_a_list(_fault, file):
    value = file.root.value
    if file.prefix:
        return f"the statements stand in the member {file.prefix[0]} of an object", f"the list alone{CONVERTS}"
    if file.shape == "single":
        return "the file is a statement, and no list of statements", f"[ and ] around the statement{CONVERTS}"
    if is_object(value):
        return "the file is an object, and no list of statements", "the list of the statements alone"
    return f"the file is {shown(value)}, and no list of statements", "[..], a list of statements"


def no_statements(_fault, _file):
    return "the list is empty", "a statement at least"


def too_many(_fault, file):
    count = len(file.value)
    return f"there are {count:,} statements, and {STATEMENTS_LIMIT:,} are the most", f"several files{CONVERTS}"


# ---- members


def is_old(statement):
    """Whether it is a statement of BODS 0.3 or older."""
    return is_object(statement) and "recordDetails" not in statement and any(name in statement for name in OLD_MEMBERS)


def replaced_by(value):
    """The identifiers of the statements that an older one replaces; some write a single one without a list."""
    names = value.get("replacesStatements")
    return [it for it in (names if isinstance(names, list) else [names]) if isinstance(it, str)]


def missing(fault, file):
    holder = file.at(fault.path)
    if is_old(holder) and fault.field != "statementDate" and not file.is_converting:
        return f"there is no {fault.field}: this is a statement of BODS 0.3 or older", f"BODS 0.4{CONVERTS}"
    if is_old(holder) and fault.field == "recordType" and "statementType" in holder:
        return f"statementType is {shown(holder['statementType'])}, and none of BODS 0.3", " or ".join(f'"{it}"' for it in OLD_TYPES)
    if fault.field in holder:
        return f"{fault.field} is null, which counts as absent", MEMBERS[fault.field]
    known = [*MEMBERS, *KNOWN, *(OLD_MEMBERS if is_old(holder) else [])]
    others = [name for name in holder if name not in known]
    other = nearest(fault.field, others)
    if other:
        return f"there is no {fault.field}, but a member {written(other)}", f"{written(fault.field)} in place of {written(other)}"
    return f"there is no {fault.field}", MEMBERS[fault.field]


def bad_ident(name, value):
    if isinstance(value, (int, float)) and not isinstance(value, bool):
        return "it is a number, and has to be a text", written(str(value))
    if not isinstance(value, str):
        return f"it is {shown(value)}, and has to be a text", MEMBERS[name]
    if not value:
        return "it is empty", MEMBERS[name]
    length = len(value.encode())
    if length > 255:
        return f"it has {length:,} bytes, and 255 are the most", "a shorter identifier"
    return f"a control character stands in {shown(value)}", written(re.sub(r"[\x00-\x1f\x7f]", "", value))


def day_meant(value):
    """The day that a text means where it has the right order."""
    found = re.fullmatch(r"\s*(\d{4})[-/.]?(\d{1,2})[-/.]?(\d{1,2})(?:[ T].*|Z|[+-]\d\d:?\d\d)?\s*", value)
    return day_of(f"{found[1]}-{int(found[2]):02}-{int(found[3]):02}") if found else None


def bad_day(_name, value):
    if not isinstance(value, str):
        return f"it is {shown(value)}, and has to be a text", '"YYYY-MM-DD"'
    day = day_meant(value)
    if day:
        return f"{shown(value)} isn't written as a day", written(day)
    if re.fullmatch(r"\d{4}(-\d\d)?", value):
        return f"{shown(value)} is no whole day", '"YYYY-MM-DD", with the day'
    if re.match(r"\d{4}-\d\d-\d\d($|T)", value):
        return f"the calendar has no day {shown(value[:10])}", "a day that there is"
    return f"{shown(value)} isn't written as a day", '"YYYY-MM-DD"'


def bad_word(words):
    def told(_name, value):
        word = OLD_TYPES.get(value) if isinstance(value, str) else None
        word = word or nearest(value, words)
        return f"{shown(value)} is none of {', '.join(words)}", written(word) if word else " or ".join(map(written, words))

    return told


def bad_end(name, value):
    return bad_ident(name, value)


def bad_list(_name, value):
    return f"it is {shown(value)}, and has to be a list", f"[{shown(value)}]" if is_object(value) else "[..]"


def bad_object(name, value):
    if name == "share" and isinstance(value, (int, float, str)) and not isinstance(value, bool):
        return f"it is {shown(value)}, and has to be an object", '{"exact":..}'
    return f"it is {shown(value)}, and has to be an object", "{..}"


def bad_statement(_name, value):
    return f"it is {shown(value)}, and has to be an object", "a statement, {..}"


def bad_bound(name, value, file, path):
    number = percent(value) if isinstance(value, str) else None
    truth = truth_meant(name, value)
    if truth is not None:
        return f"{shown(value)} is a text, and has to be a truth value", f"{written(name)}:{written(truth)}"
    if number is not None and is_whole(number):
        return f"{shown(value)} is a text, and has to be a number", f"{written(name)}:{whole_text(number)}"
    if number is not None:
        return f"{shown(value)} is a text, and has a fraction of a percent", whole_range(file, path)
    if isinstance(value, bool):
        return f"{written(value)} isn't read in {name}", "a whole number from 0 to 100"
    return f"{shown(value)} is no number", "a whole number from 0 to 100"


BAD = {
    **dict.fromkeys(IDENTS, bad_ident),
    "statementDate": bad_day,
    "recordType": bad_word(TYPES),
    "recordStatus": bad_word(STATUSES),
    "recordDetails": bad_object,
    "subject": bad_end,
    "interestedParty": bad_end,
    "identifiers": bad_list,
    "share": bad_object,
    "statement": bad_statement,
}


def bad(fault, file):
    value = file.at(fault.path)
    if fault.field == "interests":
        is_item = fault.path[-1] != "interests"
        return (f"it is {shown(value)}, and has to be an object", '{"type":..}') if is_item else bad_list("interests", value)
    if fault.field in BOUNDS:
        return bad_bound(fault.field, value, file, fault.path)
    return BAD[fault.field](fault.field, value)


def too_long(fault, file):
    count = len(file.at(fault.path))
    return f"there are {count:,} {fault.field}, and {ITEMS_LIMIT} are the most", "those that matter"


# ---- shares


def bounds_of(file, path):
    """The numbers and the truth values of a share by name, as they are written; None where one is neither."""
    node, found = file.node(path), {}
    for name in BOUNDS:
        part = node.get(name)
        if part is None:
            continue
        value = part.value if isinstance(part.value, bool) else percent(file.source[part.start : part.end].strip('"'))
        if value is None:
            return None
        found[name] = value
    return found


def fraction(fault, file):
    node = file.node(fault.path)
    text, name = file.source[node.start : node.end], fault.path[-1]
    value = numeral(text)
    if value is None:
        return f"{shown(text).strip(chr(34))} is outside 0 to 100 percent", "a whole number from 0 to 100"
    if is_whole(value):
        return f"{text} isn't written as a whole number", f"{written(name)}:{whole_text(value)}"
    return f"{text} has a fraction of a percent", whole_range(file, fault.path)


def whole_range(file, path):
    """What to write for a share with a fraction, by the path of one of its members."""
    bounds = bounds_of(file, path[:-1])
    return f'"share":{written(widened(bounds))}, the smallest whole range that holds it' if bounds else "whole numbers"


def out_of_range(fault, file):
    return f"{shown(file.at(fault.path))} is outside 0 to 100 percent", "a whole number from 0 to 100"


def empty(fault, file):
    share = file.at(fault.path)
    told = {name: share[name] for name in BOUNDS if share.get(name) is not None}
    return f"nothing meets all of {shown(told, 120)}", "a lower end below the upper one"


# ---- records


def first_of(fault, file, name):
    """Where what is asked for stands: of a statement's identifier, or of its record."""
    if name == "id":
        place, _ = file.records.ids[file.at(fault.path)]
    else:
        place = fault.last.place
    return (f"statement {place} of this file" if isinstance(place, int) else place) or "the register"


def statement_twice(fault, file):
    name = shown(file.at(fault.path))
    if file.is_converting and first_of(fault, file, "id") == "the register":
        return f"the register has statement {name} otherwise", "an identifier of its own, where it updates the record"
    return f"{first_of(fault, file, 'id')} has the identifier {name} too", "an identifier of its own, or leave the statement out"


def type_changed(fault, file):
    last = fault.last
    return f"the record is of type {last.type} by {first_of(fault, file, 'record')}", f"another recordId, or {written(last.type)}"


def record_exists(fault, file):
    return f"the record is in {first_of(fault, file, 'record')} already", '"updated", or leave recordStatus out'


def record_unknown(fault, file):
    names = [it for it in replaced_by(file.statement(fault)) if it in file.assumed]
    if names:
        says = f"it replaces {shown(names)}, which {'are' if len(names) > 1 else 'is'} in none of these files"
        return says, "the file that has it too, --against a register that has it, or no replacesStatements where the record begins here"
    where = "the register has no live statement of the record" if file.is_against else "a new register doesn't have the record"
    more = "" if file.is_against else " (--against asks the register where it may be)"
    return where, f'"new", or leave recordStatus out{more}'


def record_closed(fault, file):
    return f"{first_of(fault, file, 'record')} closed the record", "another recordId"


def date_back(fault, file):
    last = fault.last
    text = f"it is before {last.day}, the date of the record in {first_of(fault, file, 'record')}"
    return text, f"{written(last.day)} or a later day"


ADVICE = {
    "BodyTooLarge": too_large,
    "NotAList": not_a_list,
    "NoStatements": no_statements,
    "TooMany": too_many,
    "Missing": missing,
    "Bad": bad,
    "TooLong": too_long,
    "Fraction": fraction,
    "ShareRange": out_of_range,
    "EmptyShare": empty,
    "StatementTwice": statement_twice,
    "TypeChanged": type_changed,
    "RecordExists": record_exists,
    "RecordUnknown": record_unknown,
    "RecordClosed": record_closed,
    "DateBack": date_back,
}


def advice(fault, file):
    """What is wrong, and what to write in its place."""
    return ADVICE[fault.name](fault, file)


def name_of(value):
    """The name that a record's details show: that of an entity, or the first full name of a person."""
    names = member(value, "names")
    name = member(names[0], "fullName") if isinstance(names, list) and names else member(value, "name")
    return name if isinstance(name, str) else None
