"""The program with a stand-in between it and the C library, `lib/standin.c`, and registers to compare with."""
import argparse
import os
import shutil
import subprocess
from pathlib import Path
from types import SimpleNamespace

from lib.checking import DAY, is_so
from lib.notation import file_of, request_of
from lib.program import BUILT, Bor, Ended
from lib.register import Register
from lib.replies import reply_of
from lib.scripts import apart

SOURCE = Path(__file__).resolve().parent / "standin.c"
# Told as a fault: what needs a C compiler has not passed where there is none.
NOT_RUN = "not run: no cc"
ENROLMENTS = ["registrar enrol alder alder-token-000001", "registrar enrol birch birch-token-000001"]
# What tells apart the registers of the lists: their days, their agents, and what each of these sees.
PROBES = [
    "alder filings",
    "alder published",
    "alder snapshot alder c1",
    "birch filings",
    "birch snapshot birch c9",
    "cedar filings",
]


def built(folder):
    """The stand-in's library, made in the folder; none where the machine has no C compiler."""
    if not shutil.which("cc"):
        return None
    library = str(Path(folder, "standin.so"))
    subprocess.run(["cc", "-shared", "-fPIC", "-O1", "-o", library, str(SOURCE)], check=True)
    return library


def stood_in(bor, library, folder, variable, number):
    """The program that meets something at its call of this number, and the file that tells whether it did."""
    mark = Path(folder, "mark")
    mark.unlink(missing_ok=True)
    return bor.under({"LD_PRELOAD": library, variable: str(number), "STANDIN_MARK": str(mark)}), mark


# ---- asks, and what they are answered


def wish_of(ask):
    """Who asks for what, as a second answer takes it."""
    caller, wish, *rest = ask.split(" ", 2)
    words = rest[0].split(" ") if rest else []
    if wish == "lodge":
        key, due, file = rest[0].split(" ", 2)
        words = [key, due, file_of(file)]
    return caller, wish, *words


def wanted(asks):
    """The replies to asks in words of a new register: a second answer's, or what stands beside an ask."""
    register = Register(DAY)
    return [
        reply_of(ask[1], ask[0], DAY)[1] if isinstance(ask, tuple) else register.answer(*wish_of(ask)) for ask in asks
    ]


def requests_of(asks):
    return [request_of(ask[0] if isinstance(ask, tuple) else ask) for ask in asks]


def stored(folder, asks, name="ask"):
    """Stores the requests in files of their own, and gives their names."""
    names = [f"{name}{at}.http" for at in range(len(asks))]
    for one, request in zip(names, requests_of(asks)):
        Path(folder, one).write_bytes(request)
    return names


def cleared(folder, db, start=None):
    """Leaves no file of a register but a copy of the one to start with, and of its log where it has one."""
    for path in Path(folder).glob(f"{db}*"):
        path.unlink()
    for part in ("", "-wal"):
        if start and Path(f"{start}{part}").exists():
            shutil.copyfile(f"{start}{part}", Path(folder, f"{db}{part}"))


def ended_as(server, output):
    """The end of a server as that of a run with this output."""
    status, errors = server.end()
    return Ended(SimpleNamespace(returncode=status, stdout=output, stderr=errors))


def compared(asks, replies, told):
    """Each of these asks has this reply, and there is no other."""
    for ask, reply, other in zip(asks, replies, told + [b"nothing"] * len(asks)):
        is_so(reply == other, f"{str(ask):.60}: {apart(reply, other)}")
    is_so(len(told) <= len(asks), f"{len(told)} replies to {len(asks)} requests")


# ---- whole runs


def whole_run(text, tried, planted):
    """Tells of each way and each planted fault, and how long all took; the exit status."""
    parser = argparse.ArgumentParser(description=text, formatter_class=argparse.RawDescriptionHelpFormatter)
    parser.add_argument("program", nargs="?", default=BUILT)
    parser.add_argument("--step", type=int, default=1)
    words = parser.parse_args()
    bor, good, count = Bor(words.program), True, 0
    for name, fault, ends in tried(bor, words.step):
        told = ", ".join(f"{number} {end}" for end, number in sorted(ends.items())) if ends else fault
        print(f"{name}: {told}", flush=True)
        good, count = good and not fault, count + sum((ends or {}).values())
    for name, found in planted(bor):
        print(f"{name}: {f'found at {found}' if found else 'not found'}", flush=True)
        good = good and bool(found)
    spent = sum(os.times()[:4])
    print(f"{count} runs that met a refusal or a stop, {spent:.0f} seconds of processor time")
    return int(not good or count == 0)
