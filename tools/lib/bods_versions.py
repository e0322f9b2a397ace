"""Statements of BODS 0.2 and 0.3 as statements of 0.4, and what was done to each.

What 0.4 names otherwise is renamed, what it has in `recordDetails` is moved there, and all else stays as it is written.
An older statement has no record: the one that it replaces tells which record it goes on with, and so does that one.
"""
import re

from bods_advice import OLD_TYPES, is_old, replaced_by, shown
from bods_json import written
from bods_rules import NAMED, is_object, text
from bods_warnings import NOMINEES, OLD_ENDS, OTHER, TRUST

# Members beside the details, in 0.4 too.
BESIDE = ["statementDate", "publicationDetails", "source", "annotations"]
GONE = ["statementID", "statementType", "replacesStatements", "statementId", "declarationSubject", "recordId", "recordStatus"]
KINDS = {
    "settlor-of-trust": "settlor",
    "trustee-of-trust": "trustee",
    "protector-of-trust": "protector",
    "beneficiary-of-trust": "beneficiaryOfLegalArrangement",
    "other-influence-or-control-of-trust": "otherInfluenceOrControl",
    "influence-or-control": "otherInfluenceOrControl",
    "rights-to-surplus-assets": "rightsToSurplusAssetsOnDissolution",
}
RENAMED = {"incorporatedInJurisdiction": "jurisdiction"}


class Unclear(Exception):
    """Why it can't be told which record or declaration a statement belongs to; the item, and what would help."""

    def __init__(self, item, name, says, write):
        super().__init__(says)
        self.item, self.name, self.says, self.write = item, name, says, write


def kind_meant(kind):
    """An interest's type in 0.4's words, where an older word is known; else None."""
    if not isinstance(kind, str) or "-" not in kind:
        return None
    camel = KINDS.get(kind) or re.sub("-(.)", lambda found: found[1].upper(), kind)
    return camel if camel in [*NAMED, *TRUST, *NOMINEES, *OTHER] else None


def end_id(value):
    """The identifier of the statement that an older end names."""
    names = [value[name] for name in OLD_ENDS if isinstance(value.get(name), str)] if is_object(value) else []
    return names[0] if names else None


class Groups:
    """Which of many things belong together."""

    def __init__(self):
        self.above = {}

    def top(self, one):
        above = self.above.setdefault(one, one)
        while above != self.above[above]:
            self.above[above] = self.above[self.above[above]]
            above = self.above[above]
        self.above[one] = above
        return above

    def join(self, one, other):
        self.above[self.top(other)] = self.top(one)


class Versions:
    """What all statements together say of the records of older ones."""

    def __init__(self, items, live=None, declaration=None):
        self.items, self.live, self.declaration = items, live, declaration
        self.old = {it.value["statementID"]: it for it in items if is_old(it.value) and text(it.value.get("statementID"))}
        self.known, self.declared = {}, {}
        for value in [*(live.statements.values() if live else []), *(it.value for it in items if not is_old(it.value))]:
            self.known.setdefault(text(value.get("statementId")), text(value.get("recordId")))
            self.declared.setdefault(text(value.get("recordId")), set()).add(text(value.get("declarationSubject")))
        self.records, self.assumed, self.declarations = {}, {}, {}
        for item in self.old.values():
            self.find_record(item)
        self.find_declarations()

    # ---- records

    def find_record(self, item):
        """Goes from a statement to the one that it replaces, as far as that is known, and notes the record of each."""
        way, name = [], item.value["statementID"]
        while name in self.old and name not in self.records:
            if name in way:
                raise Unclear(self.old[name], "ReplacesItself", f"{shown(name)} replaces itself, by the ones it replaces", "the ones before it alone")
            way.append(name)
            names = self.replaced_of(self.old[name])
            if text(self.old[name].value.get("recordId")):
                self.records[name] = self.old[name].value["recordId"]
            elif not names:
                self.records[name] = name
            else:
                name = names[0]
        record = self.record_of(name)
        for one in way:
            self.records.setdefault(one, record)

    def replaced_of(self, item):
        """What a statement replaces; several are of one record, or it isn't clear which one goes on."""
        names = replaced_by(item.value)
        if len(names) > 1 and len({self.root(name, 0) for name in names}) > 1:
            says = f"it replaces statements of several records: {shown(names)}"
            raise Unclear(item, "ReplacesMany", says, "a statement for each record: one goes on, and the others are closed")
        return names

    def root(self, name, steps):
        """The record that a chain of replaced statements begins with."""
        while name in self.old and steps < len(self.old) and replaced_by(self.old[name].value):
            name, steps = replaced_by(self.old[name].value)[0], steps + 1
        return self.known.get(name, name)

    def record_of(self, name):
        """The record of a statement; one that is nowhere is taken for the first of its record."""
        found = self.records.get(name) or self.known.get(name)
        if found is None:
            self.assumed[name] = True
        return found or name

    # ---- declarations

    def ends(self, item):
        """The records that an older relationship names."""
        names = [end_id(item.value.get(name)) for name in ("subject", "interestedParty")]
        return [self.record_of(name) if name else None for name in names]

    def find_declarations(self):
        """One declaration for all that hangs together, so that its links are made."""
        groups, parties, subjects = Groups(), set(), []
        for name, item in self.old.items():
            subject, party = self.ends(item)
            for end in filter(None, (subject, party)):
                groups.join(self.records[name], end)
            parties.add(party)
            subjects += [subject] if subject else []
        tops = {}
        for record in [it for it in subjects if it not in parties] + subjects:
            tops.setdefault(groups.top(record), record)
        members = {}
        for name, item in self.old.items():
            members.setdefault(groups.top(self.records[name]), []).append(item)
        for top, found in members.items():
            records = {self.records[it.value["statementID"]] for it in found} | {end for it in found for end in self.ends(it) if end}
            self.declarations[top] = self.chosen(found[0], records, tops.get(top, self.records[found[0].value["statementID"]]))
        self.groups = groups

    def chosen(self, item, records, own):
        """The declaration of a group: the one that is named, or that its records have already, or its own."""
        if self.declaration:
            return self.declaration
        found = {it for record in records for it in self.declared.get(record, ()) if it}
        if len(found) > 1:
            says = f"the records that hang together with this one are in several declarations: {shown(sorted(found))}"
            raise Unclear(item, "DeclarationsMany", says, "--declaration ID, with the one that is meant")
        return found.pop() if found else own

    def declaration_of(self, item):
        return self.declarations[self.groups.top(self.records[item.value["statementID"]])]


# ---- one statement


class Rewriting:
    """An older statement's text as one of 0.4. `edits` are changes within its values that others have made."""

    def __init__(self, versions, item, edits):
        self.versions, self.item, self.edits = versions, item, edits
        self.node, self.value, self.done = item.node, item.value, []
        self.is_read = text(item.value.get("statementID")) in versions.old

    def raw(self, name):
        part = self.node.parts[name]
        return self.edits.text(part.start, part.end)

    def text(self):
        kind = text(self.value.get("statementType"))
        members = {"statementId": self.raw("statementID")} if "statementID" in self.value else {}
        self.done.append("statementID to statementId")
        if "declarationSubject" in self.value:
            members["declarationSubject"] = self.raw("declarationSubject")
        elif self.is_read:
            members["declarationSubject"] = written(self.versions.declaration_of(self.item))
            self.done.append(f"declarationSubject {members['declarationSubject']}")
        members.update((name, self.raw(name)) for name in BESIDE if name in self.node.parts)
        if self.is_read:
            members.update(self.record())
        if kind in OLD_TYPES:
            members["recordType"] = written(OLD_TYPES[kind])
            self.done.append(f"statementType {kind} to recordType {OLD_TYPES[kind]}")
        members["recordDetails"] = joined(self.details(kind))
        repeated = {name for start, name in self.item.source.file.reader.repeats if self.node.start <= start < self.node.end}
        if repeated:
            self.done.append(f"of members that stand twice the last one: {', '.join(sorted(repeated))}")
        return joined(members)

    def record(self):
        names, record = replaced_by(self.value), self.versions.records[self.value["statementID"]]
        status = "updated" if names else "new"
        told = f"replacesStatements {shown(names)} to " if names else ""
        assumed = [it for it in names if it in self.versions.assumed]
        more = f", taking {shown(assumed[0])}, which isn't in these files, for the first of the record" if assumed else ""
        self.done.append(f"{told}recordId {shown(record)} and recordStatus {status}{more}")
        return {"recordId": written(record), "recordStatus": written(status)}

    def details(self, kind):
        """The members of the details, each as it is written but for those that 0.4 has otherwise."""
        found, moved = {}, []
        for name in self.node.parts:
            if name in GONE or name in BESIDE or name == "entitySubtype" and self.is_subtype():
                continue
            to = RENAMED.get(name, name)
            if to != name and to not in self.node.parts:
                self.done.append(f"{name} to {to}")
                found[to] = self.raw(name)
            elif kind == "ownershipOrControlStatement" and name in ("subject", "interestedParty"):
                found[name] = self.end(name)
            elif name == "componentStatementIDs" and isinstance(self.value[name], list):
                found["componentRecords"] = self.components(name)
            elif name == "entityType" and is_text(self.value[name]):
                found[name] = self.entity_type()
            else:
                found[name] = self.raw(name)
                moved.append(name)
        if moved:
            self.done.append(f"moved to recordDetails: {', '.join(moved)}")
        return found

    def end(self, name):
        value, other = self.value[name], end_id(self.value[name])
        if other:
            record = self.versions.record_of(other)
            more = ", which isn't in these files" if other in self.versions.assumed else ""
            self.done.append(f"{name}: statement {shown(other)}{more} to record {shown(record)}")
            return written(record)
        if is_object(value) and is_object(value.get("unspecified")):
            part = self.node.parts[name].parts["unspecified"]
            self.done.append(f"{name}: unspecified to its own object")
            return self.edits.text(part.start, part.end)
        return self.raw(name)

    def components(self, name):
        told = [self.versions.record_of(it) if isinstance(it, str) else it for it in self.value[name]]
        self.done.append(f"{name} to componentRecords {shown(told)}")
        return written(told)

    def is_subtype(self):
        """Whether the subtype goes into 0.4's entityType; else it is moved as it is written."""
        return is_text(self.value.get("entityType")) and is_object(self.value["entitySubtype"])

    def entity_type(self):
        """0.4 has the type, the subtype and its local term in one object."""
        subtype, members = self.value.get("entitySubtype"), {"type": self.raw("entityType")}
        category = text(subtype.get("generalCategory")) if is_object(subtype) else None
        if category:
            members["subtype"] = written(category.rpartition("-")[2])
        if is_object(subtype) and is_text(subtype.get("localTerm")):
            members["details"] = written(subtype["localTerm"])
        self.done.append(f"entityType to {joined(members)}")
        return joined(members)


def is_text(value):
    return isinstance(value, str)


def joined(members):
    """An object of members whose texts are JSON already."""
    return "{" + ",".join(f"{written(name)}:{value}" for name, value in members.items()) + "}"
