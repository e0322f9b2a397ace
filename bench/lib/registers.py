"""Registers in files that are measured."""
import subprocess
import sys

from lib.programs import BOR
from lib.requests import AGENTS, DAY, REGISTRAR, enrolments, entity, held, lodged, lodging, person, stored

IN_A_FILING = 1_000
FILINGS = 200
RUNGS = 49


def exchanged(words, requests, folder, name="request"):
    """What `bor exchange` writes for the requests."""
    paths = map(str, stored(folder, requests, name))
    ran = subprocess.run([BOR, "exchange", *words, "--registrar", REGISTRAR, "--day", DAY, *paths], capture_output=True)
    if ran.returncode > 1:
        sys.exit(f"bor exchange ended with status {ran.returncode}: {ran.stderr.decode()}")
    return ran.stdout


def filing(at, size):
    """A file of so many entities."""
    return "[" + ",".join(entity(f"s{at}-{n}", f"e{at}-{n}", f"{at:04}{n:04}") for n in range(size)) + "]"


def grown(folder, records):
    """A register's file with so many records, all published."""
    file = folder / f"records-{records}.db"
    size = min(records, IN_A_FILING)
    requests = enrolments(AGENTS) + [
        lodging(AGENTS[at % 4], f"k{at}", DAY, filing(at, size)) for at in range(records // size)
    ]
    exchanged(["--db", str(file)], requests, folder, f"grown-{records}")
    return file


def setup():
    """The requests of a small register: four agents with fifty filings each."""
    return enrolments(AGENTS) + [
        lodging(AGENTS[n % 4], f"k{n}", DAY, lodged(n // 4 % 7, f"-{n}")) for n in range(FILINGS)
    ]


def ladder(at):
    """The statements of a ladder of so many links, with a person at its end, and of its hold on `all`."""
    rungs = [f"l{at}e{n}" for n in range(RUNGS)]
    ends = rungs + [f"l{at}p"]
    told = [entity(f"s-{rec}", rec, rec) for rec in rungs] + [person(f"s-{ends[-1]}", ends[-1])]
    for subject, party in zip(ends, ends[1:]):
        told.append(held(f"s-{subject}-{party}", f"{subject}-{party}", subject, party))
    return told + [held(f"s-all-{at}", f"all-{at}", "all", rungs[0])]


def ladders(records):
    """The requests of a register with so many records, all published by alder."""
    told = [entity("s-all", "all", "all")]
    for at in range(records // (2 * RUNGS + 2)):
        told += ladder(at)
    files = [told[at : at + IN_A_FILING] for at in range(0, len(told), IN_A_FILING)]
    asked = [lodging("alder", f"k{at}", DAY, "[" + ",".join(one) + "]") for at, one in enumerate(files)]
    return enrolments(AGENTS) + asked


def laddered(folder, records):
    """The file of such a register."""
    file = folder / f"ladders-{records}.db"
    exchanged(["--db", str(file)], ladders(records), folder)
    return file
