"""The rows of bench/compare: what is asked of the program and of a plain one."""
import shutil
import subprocess
import sys

from lib.baseline import built_baseline
from lib.mixed import mix as mixed_statements
from lib.mixes import kinds, mix
from lib.programs import BUILT, free_port
from lib.registers import exchanged, grown, ladders, setup
from lib.requests import AGENTS, DAY, REGISTRAR, enrolments, lodged, lodging, request, stored
from lib.runs import Command, Commands, Serving, cleared
from lib.servers import bor_serve
from lib.users import AGENTS_ASKING, users_mix

LODGINGS = 500
# How often one request is asked again that lib/mixes.py has 400 times: a single one takes some microseconds.
TIMES = 10


class Rows:
    """The rows whose names have one of these parts, or all of them; files lie in the folder."""

    def __init__(self, folder, parts):
        self.folder, self.parts = folder, parts
        self.baseline = built_baseline(folder / "baseline")
        self.over_files = built_baseline(folder / "file-baseline", ["file"])

    def is_asked(self, name):
        return not self.parts or any(part in name for part in self.parts)

    def all(self):
        for group in (self.served, self.reports, self.checks, self.over_a_file, self.over_memory):
            for name, make in group():
                if self.is_asked(name):
                    yield make(name)

    def plain(self, *words):
        """The words of the baseline, where there is one."""
        return self.baseline and [self.baseline, *words]

    # ---- requests over memory, and files that are checked

    def over_memory(self):
        listed = {
            "as users ask": (1.5, enrolments(AGENTS_ASKING), users_mix(2_000)),
            "one register": (1.5, enrolments(AGENTS), mix(2_000)),
            "a small register": (None, enrolments(AGENTS), mix(200)),
        }
        for name, (before, asked) in kinds().items():
            listed[name] = None, before, asked * TIMES if len(set(asked)) == 1 else asked
        for name, (goal, before, asked) in listed.items():
            yield f"memory: {name}", lambda name, words=(goal, before, asked): self.exchanged(name, *words)

    def exchanged(self, name, goal, before, asked):
        """The requests after the setup, over a new register in memory, in one run."""
        folder = self.folder / "".join(letter for letter in name if letter.isalnum())
        folder.mkdir()
        before, asked, programs = stored(folder, before, "setup"), stored(folder, asked, "asked"), []
        for words in ([BUILT, "exchange", "--registrar", REGISTRAR, "--day", DAY], self.plain("exchange")):
            out = folder / f"out-{len(programs)}"
            programs.append(words and [Command([*words, *before, *asked], output=out), Command([*words, *before])])
        return Commands(name, len(asked), goal, programs, lambda: alike(name, folder / "out-0", folder / "out-1"))

    def checks(self):
        for count in (100, 300, 1_000):
            yield f"check: {count:,} statements of 1 KB", lambda name, count=count: self.checked(name, count)

    def checked(self, name, count):
        """The check of a file, less that of an empty one."""
        file, empty, programs = self.folder / f"mix-{count}", self.folder / "empty", []
        file.write_text(mixed_statements(count, 1_000))
        empty.touch()
        for words in ([BUILT, "check"], self.plain("check")):
            out = self.folder / f"checked-{len(programs)}"
            programs.append(words and [Command([*words, file], output=out), Command([*words, empty])])
        compare = lambda: alike(name, self.folder / "checked-0", self.folder / "checked-1")
        return Commands(name, 1, 1.2, programs, compare, 5)

    # ---- registers in files

    def over_a_file(self):
        yield "file: lodging of three statements", self.lodgings
        for records in (2_000, 10_000, 50_000):
            yield f"file: start over {records:,} records", lambda name, records=records: self.starts(name, records)

    def lodgings(self, name):
        """Lodgings of three statements over a file that has four agents."""
        folder = self.folder
        start, file, other = folder / "start.db", folder / "ours.db", folder / "baseline.db"
        exchanged(["--db", str(start)], enrolments(AGENTS), folder)
        asked = [lodging(AGENTS[n % 4], f"k{n}", DAY, lodged(n // 4 % 7, f"-{n}")) for n in range(LODGINGS)]
        paths = stored(folder, asked, "lodging"), stored(folder, [request("nobody", "GET", "/filings")], "nothing")
        out, told = folder / "ours.out", folder / "baseline.out"
        words = [BUILT, "exchange", "--db", file, "--registrar", REGISTRAR, "--day", DAY]
        programs = [[Command([*words, *list_of], lambda: cleared(file, start), out) for list_of in paths]]
        if self.over_files:
            words = [self.over_files, "file", other]
            programs.append([Command([*words, *list_of], lambda: cleared(other, start), told) for list_of in paths])

        def compare():
            """The run without lodgings comes last, so each file is made once more."""
            for whole, _ in programs:
                whole.spent()
            if len(programs) > 1:
                alike(name, out, told)
                alike(name, *[rows_into(one) for one in (file, other)])

        return Commands(name, LODGINGS, 1.5, programs, compare)

    def starts(self, name, records):
        """The start over a file of so many records."""
        file = grown(self.folder, records)
        nothing = Command(["true"])
        ours = [Command([BUILT, "serve", "--db", file, "--port", free_port(), "--connections", "0"]), nothing]
        plain = [Command(["sqlite3", file, "SELECT day FROM register"]), nothing] if shutil.which("sqlite3") else None
        return Commands(name, 1, None, [ours, plain])

    # ---- servers

    def served(self):
        get = lambda target: request("alder", "GET", target)
        small, laddered = ("small", setup), ("ladders-2000", lambda: ladders(2_000))
        listed = {
            "GET filings": (small, get("/filings"), 1.2),
            "GET filings, 16 clients at once": (small, get("/filings"), 1.2),
            "GET a file": (small, get("/filings/k0/file"), None),
            "GET a snapshot": (small, get("/snapshot?agent=alder&declaration=c1"), None),
            "GET chains": (small, get("/chains?agent=alder&declaration=c1&record=e0-0"), 1.2),
            "GET chains, 49 links": (laddered, get("/chains?agent=alder&declaration=c1&record=l0e0"), 1.2),
            "refused: NoToken": (small, get("/filings").replace("Bearer", "Basic"), 1.2),
            "refused: NoAgent": (small, request("nobody", "GET", "/filings"), 1.2),
        }
        for name, words in listed.items():
            clients = 16 if "16 clients" in name else 1
            yield f"serve: {name}", lambda name, words=words, clients=clients: self.serving(name, 800, *words, clients)
        for name in ("GET filings", "GET a file", "refused: NoAgent"):
            words = *listed[name][:2], None, 1, self.over_the_file
            yield f"serve: {name}, by SQLite", lambda name, words=words: self.serving(name, 800, *words)
        yield "serve: PUT of three statements, by SQLite", self.lodging_served

    def lodging_served(self, name):
        """Lodgings of three statements by servers of one file."""
        asked = [lodging(AGENTS[n % 4], f"n{n}", DAY, lodged(n // 4 % 7, f"-n{n}")) for n in range(3_000)]
        return self.serving(name, 100, ("small", setup), asked, 2.0, 1, self.over_the_file)

    def reports(self):
        asked = request("birch", "GET", "/chains?agent=alder&declaration=c1&record=all")
        for records in (2_000, 10_000, 50_000):
            kept = f"ladders-{records}", lambda records=records: ladders(records)
            words = 20_000 // records + 1, kept, asked, 1.0
            yield f"report: all of {records:,} records", lambda name, words=words: self.serving(name, *words)

    def serving(self, name, count, kept, asked, goal, clients=1, plain=None):
        """One request of servers, or the next of a list, ours over a copy of a file, the baseline after the same requests, in memory unless said."""
        file, paths = self.kept(*kept)

        def ours(connections):
            cleared(self.folder / "served.db", file)
            return bor_serve(self.folder / "served.db", connections)

        other = (plain or self.in_memory)(file, paths)
        return Serving(name, count, goal, [ours, other], asked, clients)

    def in_memory(self, _, paths):
        """What starts the baseline's server of these requests, where there is one."""
        return self.baseline and (lambda connections: [self.baseline, "serve", free_port(), connections, *paths])

    def over_the_file(self, file, _):
        """What starts the baseline's server over a copy of the file, where there is one."""
        copy = self.folder / "plain.db"

        def start(connections):
            cleared(copy, file)
            return [self.over_files, "serve-file", copy, free_port(), connections]

        return self.over_files and start

    def kept(self, name, requests):
        """The file of a register that these requests make, and the files of the requests."""
        file, folder = self.folder / f"{name}.db", self.folder / name
        if not file.exists():
            folder.mkdir()
            exchanged(["--db", str(file)], requests(), folder)
        return file, sorted(folder.iterdir(), key=lambda path: int(path.stem.rpartition("-")[2]))


def rows_into(file):
    """A file with the rows of a database's tables, as sqlite3 tells them."""
    told = file.with_suffix(".rows")
    told.write_bytes(subprocess.run(["sqlite3", str(file), ".dump"], capture_output=True, check=True).stdout)
    return told


def alike(name, ours, other):
    """Ends the script where two files differ; where there is one alone, nothing is compared."""
    if other.exists() and ours.read_bytes() != other.read_bytes():
        sys.exit(f"{name}: the replies or the rows differ")
