"""Runs of hostile inputs over a register in memory and over one in a file, and what has to hold whatever comes."""
import json
import os
import random
import re
import subprocess
import tempfile
from collections import Counter
from pathlib import Path

from lib.hostile_inputs import Maker, WORDS, numbered, worked_requests
from lib.notation import request_of, token_of
from lib.program import REGISTER
from lib.replies import exit_status
from lib.reply_shapes import FILE, REFUSALS, ROUTES, body_fault, refusal_fault, reply_at, status_fault
from lib.scripts import apart
from lib.second_http import Second

# Names of groups of faults, and what has to hold of each batch.
GROUPS = {
    "ends": "each run ends in time, with its replies' status and nothing on standard error",
    "whole": "each input has one whole reply, with its status line, its fields and its length",
    "statuses": "each status and each refusal is of the table, and none is 503",
    "bodies": "each body is JSON of the shape of what was asked, and a file is told as it was lodged",
    "same": "a register in memory and one in a file tell the same bytes",
    "second": "a second answer is the same, to each input of which it says something",
    "refused": "a refused input leaves the register as it was",
    "words": "no reply to another has a word of alder's drafts",
    "beside": "where alder has none of its drafts, all others are told the same",
}
BATCH, PLACES = 500, 8
# One batch of so many is compared with a second answer.
COMPARED = 20
DB, DAY = "register.db", "2024-02-01"
# What a run may take beside a fiftieth of a second for each input.
SECONDS = 5
# Runs that narrow what failed.
TRIES = 100
HEAD_END = re.compile(rb"\n\r?\n")
BEARER = re.compile(rb"(?im)^authorization:[ \t]*bearer +(\S+)[ \t]*\r?$")
ALDER = token_of("alder").encode()

SET_UP = [
    "registrar enrol alder alder-token-000001",
    "registrar enrol birch birch-token-000001",
    "birch lodge b9 2024-02-01 E x1 e9 #X/1; P x2 p9; R x3 r9 e9<-p9 V100 in c9",
    "alder lodge a1 2024-02-01 E x1 e1; P x2 p1; R x3 r1 e1<-p1 V100",
    "alder lodge a2 2024-02-01 E x4 e2 #Y/1; R x5 r2 e2<-e1 V60",
    "alder lodge d1 2024-03-01 E x6unseen-00000000 e3 #X/1; P x7 p-unseen-00000000; R x8 r3 e3<-p-unseen-00000000 V100",
    "alder lodge d2 2024-03-01 E x9 e-unseen-00000000 #unseen-00000000/1 in unseen-00000000",
    "alder lodge d3 2024-04-01 E xA e2 #X/1 @2024-01-11; P xB p2; R xC r4 e2<-p2 S60",
    "alder withdraw d2",
    "birch lodge b1 2024-03-01 E x4 e1 #Y/1; P x5 p1; R x6 r1 e1<-p1 V51 in c9",
]
PROBES = [
    "alder filings",
    "birch filings",
    "cedar filings",
    "birch published",
    "alder snapshot alder c1",
    "birch snapshot alder c1",
    "birch snapshot birch c9",
    "alder chains alder c1 e2",
    "birch chains birch c9 e9",
    "alder evidence alder c1 e2",
    "birch evidence birch c9 e9",
    "alder entities X 1",
    "birch entities Y 1",
    "alder file d1",
    "birch file b1",
    "registrar register",
]
PROBED = [request_of(ask) for ask in PROBES]


def set_up():
    """The requests that each register begins with; the words of drafts have numbers of their own."""
    return [numbered(request_of(ask), 90_000_000 + at) for at, ask in enumerate(SET_UP)]


class Fault:
    """Of which group it is, the place of the input in its list, and what was seen."""

    def __init__(self, group, place, text):
        self.group, self.place, self.text = group, place, text


# ---- lists of inputs


class Plan:
    """The inputs between the set-up and questions: at some places all is asked before and after a few of them."""

    def __init__(self, inputs):
        self.inputs, self.asked, self.windows = inputs, set_up(), []
        self.places = []
        count = min(len(inputs), PLACES)
        starts = {at * len(inputs) // count: 1 + at % 3 for at in range(count)}
        left = None
        for at, data in enumerate(inputs):
            if at in starts and left is None:
                before, left, first = self.probe(), starts[at], at
            self.places.append(len(self.asked))
            self.asked.append(data)
            if left is not None:
                left -= 1
                if left == 0:
                    self.windows.append((before, self.probe(), range(first, at + 1)))
                    left = None
        self.end = self.probe()

    def probe(self):
        """Asks all questions, and gives the place of the first."""
        self.asked += PROBED
        return len(self.asked) - len(PROBED)

    def own(self, place):
        """The number of the input at this place of the list, if it is none of ours."""
        return self.places.index(place) if place in self.places else None


# ---- runs


class Run:
    """What a list of inputs was told, or a fault."""

    def __init__(self, replies, fault):
        self.replies, self.fault = replies, fault


def run_of(bor, folder, asked, names, db=None):
    """A run on files that stand in the folder, each reply looked at."""
    store = ["--db", db] if db else []
    words = [bor.path, "exchange", *store, *REGISTER, *names]
    limit = SECONDS + len(names) / 50
    try:
        ran = subprocess.run(words, cwd=folder, stdin=subprocess.DEVNULL, capture_output=True, timeout=limit)
    except subprocess.TimeoutExpired as found:
        replies, _ = replies_of(found.stdout or b"", asked)
        return Run(replies, Fault("ends", len(replies), f"it has not ended after {limit:.0f} seconds"))
    replies, fault = replies_of(ran.stdout, asked)
    if fault and ran.returncode in (0, 1):
        return Run(replies, fault)
    wanted = max((exit_status(told.status) for told in replies), default=0)
    if len(replies) < len(asked) or ran.returncode != wanted or ran.stderr:
        text = f"status {ran.returncode}, {len(replies)} replies to {len(asked)} inputs, errors {ran.stderr[:300]!r}"
        return Run(replies, fault or Fault("ends", min(len(replies), len(asked) - 1), text))
    return Run(replies, None)


def replies_of(output, asked):
    """The replies in an output, one for each input, up to the first that is none."""
    replies, at = [], 0
    for place in range(len(asked)):
        if at == len(output):
            return replies, None
        told, text = reply_at(output, at)
        if text:
            return replies, Fault("whole", place, text)
        at += len(told.bytes)
        replies.append(told)
    text = f"behind the last reply stands {output[at : at + 200]!r}"
    return replies, Fault("whole", len(asked) - 1, text) if at < len(output) else None


# ---- what has to hold of each reply


def shape_fault(asked, replies, known):
    """The first reply with a status, a refusal or a body that may not be; what is known to be right is passed over."""
    for place, told in enumerate(replies):
        is_success = told.status in (200, 201)
        key = (told.status, told.body, asked[place] if is_success else None)
        if key in known:
            continue
        fault = status_fault(told)
        if fault:
            return Fault("statuses", place, fault)
        fault = body_fault(asked[place], told) if is_success else refusal_fault(told)
        if fault:
            return Fault("bodies", place, fault)
        known.add(key)
    return None


def file_fault(asked, replies):
    """The first file that is told and that nobody lodged."""
    lodged = [data for data, told in zip(asked, replies) if told.status == 201]
    route = next(route for route, shapes in ROUTES if shapes.get(200) is FILE)
    told_before = set()
    for place, (data, told) in enumerate(zip(asked, replies)):
        if told.status == 200 and route.match(data.lstrip(b"\r\n")) and told.body not in told_before:
            if not any(told.body in other for other in lodged):
                return Fault("bodies", place, f"a file is told that nobody lodged: {told.body[:200]!r}")
            told_before.add(told.body)
    return None


def changed_place(one, other):
    """The first place at which two lists of replies differ."""
    for place, (first, second) in enumerate(zip(one, other)):
        if first.bytes != second.bytes:
            return place, apart(first.bytes, second.bytes)
    return None


def window_fault(plan, replies):
    """The first place at which a question is answered otherwise after inputs that were all refused."""
    asked = 0
    for before, after, inputs in plan.windows:
        if not all(replies[plan.places[at]].is_refusal() for at in inputs):
            continue
        asked += 1
        for at, ask in enumerate(PROBES):
            one, other = replies[before + at].bytes, replies[after + at].bytes
            if one != other:
                return asked, Fault("refused", plan.places[inputs[0]], f"{ask}: {apart(one, other)}")
    return asked, None


def second_fault(asked, replies):
    """How many inputs a second answer says something of, and the first of them whose reply is another one."""
    second, said = Second(DAY), 0
    for place, (data, told) in enumerate(zip(asked, replies)):
        answer = second.answer(data)
        if answer is None and not told.is_refusal() and b"GET " not in data[:8]:
            break  # from here on the second register may be another one
        if answer is not None and answer != told.bytes:
            return said, Fault("second", place, f"{data[:100]!r}: {apart(answer, told.bytes)}")
        said += answer is not None
    return said, None


# ---- who may be told what


def is_alders(data):
    """Whether the head has alder's token where a token stands."""
    return ALDER in BEARER.findall(HEAD_END.split(data, 1)[0])


def line_told(told):
    """The filing or the day that a reply tells of, if it does."""
    if told.status in (200, 201) and told.body[:7] in (b'{"due":', b'{"day":'):
        return json.loads(told.body)
    return {}


def word_fault(asked, replies, alders):
    """The first reply to another with a word of alder's that is neither published nor anybody else's."""
    held, shown, waiting, today = set(), set(), [], DAY
    for place, (data, told) in enumerate(zip(asked, replies)):
        words, line = set(WORDS.findall(data)), line_told(told)
        today = line.get("day", today)
        if told.status == 201 and line:
            waiting.append((line["due"], words))
        shown.update(*(some for due, some in waiting if due <= today))
        waiting = [(due, some) for due, some in waiting if due > today]
        if alders[place]:
            held |= words
            continue
        shown |= words
        if b"unseen-" in told.body:
            found = [word for word in WORDS.findall(told.body) if word in held and word not in shown]
            if found:
                return Fault("words", place, f"it is told {found[0].decode()}, a word of a draft: {told.body[:200]!r}")
    return None


def seen_lodgings(asked, replies, alders):
    """The places of alder's lodgings that are published at the end."""
    today, lodged = DAY, {}
    for place, told in enumerate(replies):
        line = line_told(told)
        today = line.get("day", today)
        if alders[place] and line.get("state") == "withdrawn":
            lodged.pop(line["filing"], None)
        elif alders[place] and told.status == 201 and "due" in line:
            lodged[line["filing"]] = place, line["due"]
    return {place for place, due in lodged.values() if due <= today}


# ---- one batch


def written(folder, asked):
    """The name of a file for each input; equal ones have one file."""
    names = {}
    for data in asked:
        if data not in names:
            names[data] = f"{len(names)}.http"
            with open(os.path.join(folder, names[data]), "wb") as file:
                file.write(data)
    return [names[data] for data in asked]


class Batch:
    """Inputs that are asked of a register of their own."""

    def __init__(self, bor, inputs, compares=True):
        self.bor, self.plan, self.compares = bor, Plan(inputs), compares
        self.statuses, self.refusals, self.windows, self.said = Counter(), Counter(), 0, 0
        self.known = set()

    def faults(self):
        """The faults of the batch, with the place of the input among its own, where it has one."""
        with tempfile.TemporaryDirectory(prefix="bor-fuzz-") as folder:
            found = list(self.faults_in(folder))
        return found

    def faults_in(self, folder):
        asked = self.plan.asked
        names = written(folder, asked)
        memory = run_of(self.bor, folder, asked, names)
        file = run_of(self.bor, folder, asked, names, DB)
        for run in (memory, file):
            if run.fault:
                yield run.fault
        for run in (memory, file):
            fault = shape_fault(asked, run.replies, self.known) or file_fault(asked, run.replies)
            if fault:
                yield fault
                break
        differing = changed_place(memory.replies, file.replies)
        if differing:
            yield Fault("same", *differing)
        if not memory.fault:
            self.count(memory.replies)
            yield from self.faults_of(folder, names, memory.replies)

    def count(self, replies):
        for at in self.plan.places:
            told = replies[at]
            self.statuses[told.status] += 1
            if told.is_refusal():
                found = re.search(rb'"refusal":"(\w+)"', told.body)
                self.refusals[found[1].decode() if found else "?"] += 1

    def faults_of(self, folder, names, replies):
        """What hangs on more than one reply."""
        asked = self.plan.asked
        alders = [is_alders(data) for data in asked]
        self.windows, fault = window_fault(self.plan, replies)
        refused = {at for at, told in enumerate(replies) if told.is_refusal()}
        fault = fault or self.left_out(folder, names, replies, refused, "refused")
        if fault:
            yield fault
        if self.compares:
            self.said, fault = second_fault(asked, replies)
            if fault:
                yield fault
        fault = word_fault(asked, replies, alders)
        if fault:
            yield fault
        own = {at for at, alder in enumerate(alders) if alder}
        unseen = own - seen_lodgings(asked, replies, alders)
        fault = self.left_out(folder, names, replies, unseen, "beside", own)
        if fault:
            yield fault

    def left_out(self, folder, names, replies, left, group, unseen=frozenset()):
        """A run without these inputs tells the others, but for the unseen ones, what they were told."""
        places = [at for at in range(len(names)) if at not in left]
        asked = [self.plan.asked[at] for at in places]
        run = run_of(self.bor, folder, asked, [names[at] for at in places])
        if run.fault:
            return Fault(run.fault.group, None, run.fault.text)
        for at, told in zip(places, run.replies):
            if at not in unseen and told.bytes != replies[at].bytes:
                return Fault(group, None, f"{self.plan.asked[at][:100]!r}: {apart(replies[at].bytes, told.bytes)}")
        return None


# ---- narrowing


def has_fault(bor, inputs, group):
    """The fault of this group that the inputs have, if they have one."""
    return next((fault for fault in Batch(bor, inputs, group == "second").faults() if fault.group == group), None)


def narrowed(bor, inputs, fault, place):
    """The fewest inputs that were found to have a fault of the group, and that fault; one alone where one is enough."""
    if place is not None:
        found = has_fault(bor, [inputs[place]], fault.group)
        if found:
            return [inputs[place]], found
    size, tries = len(inputs) // 2, TRIES
    while size and tries:
        at = 0
        while at < len(inputs) and tries:
            fewer = inputs[:at] + inputs[at + size :]
            found = has_fault(bor, fewer, fault.group) if fewer else None
            tries -= 1
            if found:
                inputs, fault = fewer, found
            else:
                at += size
        size //= 2
    return inputs, fault


class Finding:
    """A fault of a batch, narrowed; the inputs are saved under a name."""

    def __init__(self, group, inputs, text, name):
        self.group, self.inputs, self.text, self.name = group, inputs, text, name

    def saved(self, folder):
        """Writes the inputs, and gives where they are."""
        folder = Path(folder)
        folder.mkdir(parents=True, exist_ok=True)
        if len(self.inputs) == 1:
            path = folder / f"{self.name}.http"
            path.write_bytes(self.inputs[0])
            return path
        for at, data in enumerate(self.inputs):
            (folder / f"{self.name}-{at:03}.http").write_bytes(data)
        return folder / f"{self.name}-*.http"


class Outcome:
    """What came of one batch."""

    def __init__(self, number, batch, findings):
        self.number, self.findings = number, findings
        self.statuses, self.refusals = batch.statuses, batch.refusals
        self.windows, self.said = batch.windows, batch.said
        self.count = len(batch.plan.inputs)


class Fuzz:
    """Batches of inputs, each by its seed and number alone."""

    def __init__(self, bor, seed, narrows=True):
        self.bor, self.seed, self.narrows = bor, seed, narrows
        self.worked = worked_requests()
        self.narrowed = set()

    def inputs(self, number, count=BATCH):
        maker = Maker(random.Random(f"{self.seed} {number}"), self.worked)
        return [maker.input(at) for at in range(count)]

    def outcome(self, number, count=BATCH):
        """A batch, asked; the first fault of each group is narrowed once."""
        inputs = self.inputs(number, count)
        batch = Batch(self.bor, inputs, number % COMPARED == 0)
        findings = []
        for fault in batch.faults():
            some = inputs
            if self.narrows and fault.group not in self.narrowed:
                self.narrowed.add(fault.group)
                own = batch.plan.own(fault.place)
                some, fault = narrowed(self.bor, inputs, fault, own)
            findings.append(Finding(fault.group, some, fault.text, f"{self.seed}-{number}-{fault.group}"))
        return Outcome(number, batch, findings)


def sizes(count):
    """The sizes of the batches of so many inputs."""
    return [min(BATCH, count - at) for at in range(0, count, BATCH)]


def unmet(statuses, refusals):
    """The statuses and refusals of the tables that no input met; that an agent's filings are full is asked by a row."""
    names = {name for names in REFUSALS.values() for name in names} - {"FilingsFull"}
    met = {status for status, times in statuses.items() if times}
    return sorted({200, 201, *REFUSALS} - met) + sorted(names - set(refusals))
