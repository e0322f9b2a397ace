"""Proves libraries and leaves them built, side by side, and tells how far that is.

`rt lib` proves a library and leaves it built in one pass, but holds the folders of all crates below it
meanwhile, so two of them in one checkout take turns. So the scripts here hold the folders themselves, and
call what `rt lib` calls for a library (build_rlib, or the command below it) and what `rt ci` calls for many
(in_lanes).
"""
import contextlib
import ctypes
import importlib.machinery
import importlib.util
import os
import shutil
import signal
import sys
import threading
import time
from pathlib import Path

from lib.countdown import Countdown, Told, used_below
from lib.crates import TOP, times

MEMORY = 2_500_000_000  # that a check takes, in bytes; with each job more, 0.6 of it
# The seconds of processor time that a crate takes of which none were measured: each, for a line of its src, for such
# a line where it stands on SQLite, and for linking the program. An earlier check saves two thirds.
ANY, LINE, SQL_LINE, LINK = 30, 0.11, 0.09, 200
# A check works on gigabytes of small values. Its allocator, mimalloc, takes a twentieth less of its time where it makes
# its room in one go and keeps what it was given.
ALLOCATOR = {"MIMALLOC_ARENA_EAGER_COMMIT": "1", "MIMALLOC_PURGE_DELAY": "-1"}
# What stands for the functions by which some kits share work between checkouts, where a kit has none of them.
NOT_SHARED = {"share_work": lambda is_on: None, "take_rlib": lambda crate: False, "offer": lambda crate, stamp: None}
ERRORS = sys.stderr


def keep_memory():
    """Has the checks that this process starts keep their memory, unless the caller's environment says otherwise."""
    for name, value in ALLOCATOR.items():
        os.environ.setdefault(name, value)


def toolchain():
    """The functions of `rt`, whose checks keep their memory; None where there is no such command."""
    keep_memory()
    path = shutil.which("rt")
    if path is None:
        return None
    loader = importlib.machinery.SourceFileLoader("rt", os.path.realpath(path))
    module = importlib.util.module_from_spec(importlib.util.spec_from_loader("rt", loader))
    loader.exec_module(module)
    # What checks in other checkouts on this machine kept of the same text is taken from there, by an rt that shares it.
    for name, instead in NOT_SHARED.items():
        vars(module).setdefault(name, instead)
    module.share_work(True)
    module.rtlib.guarded()
    return module


def end_with_the_caller():
    """Ends this process where the one that called it ends (PR_SET_PDEATHSIG), and at Ctrl-C at once."""
    ctypes.CDLL(None).prctl(1, signal.SIGTERM)
    if signal.getsignal(signal.SIGINT) is signal.default_int_handler:
        signal.signal(signal.SIGINT, signal.SIG_DFL)


def say(text):
    with contextlib.suppress(OSError):  # (whoever read it may have gone)
        ERRORS.write(text)
        ERRORS.flush()


def crate_of(rt, name, known=None):
    """The crate of this name, with those that it stands on."""
    return rt.rtlib.Crate(str(TOP / "crates" / name), str(TOP), {} if known is None else known)


# ---- how long it takes


def seconds(crate, lib, took):
    """About how long a crate takes, where earlier ones took so long."""
    lines = sum((lib.text_of(file) or "").count("\n") for file in lib.files_of(crate.folder) if file.endswith(".rt"))
    guess = ANY + (LINE + SQL_LINE * ("sqlite" in crate.of_kit)) * lines + LINK * crate.is_program
    whole = took.get(crate.name, guess)
    return whole / 3 if os.path.isdir(f"{crate.folder}/out/incremental") else whole


class Progress:
    """How far the work is, told as it changes. The crates stand each after those that it waits for."""

    def __init__(self, rt, crates):
        self.lanes, self.more = lanes_of(rt), more_jobs(rt)
        took = times()
        # the crates that are being proved, with how many jobs; and those that all others wait for
        self.running, self.pressing, self.turn = {}, set(), threading.RLock()
        self.expected = {it.name: seconds(it, rt.rtlib, took) for it in crates}
        self.waits = {it.name: [below.name for below in it.below() if below in crates] for it in crates}
        self.countdown = Countdown(self.expected, self.waits, self.lanes, self.most(), time.monotonic())
        self.ended, self.failed, self.shown, self.told = set(), set(), Told(), ""
        self.is_over = threading.Event()
        threading.Thread(target=self.follow, daemon=True).start()

    def begin(self, name, jobs):
        """A crate is begun with so many jobs."""
        with self.turn:
            self.running[name] = jobs
            self.tell()

    def end(self, name, is_proved=True):
        """A crate is proved, or it isn't, which may be since one below it isn't."""
        with self.turn:
            self.running.pop(name, None)
            self.ended.add(name)
            self.failed |= set() if is_proved else {name}
            self.tell()

    def begin_in_turn(self, name):
        """A crate is begun, with one job, or with its share of the lanes where the others wait for it. Gives whether
        they do, and how many jobs it has."""
        with self.turn:
            is_pressing = self.countdown.is_pressing(name)
            jobs = min(self.most(), self.share(name)) if is_pressing else 1
            if is_pressing:
                self.pressing.add(name)
            self.begin(name, jobs)
            return is_pressing, jobs

    def most(self):
        """How many jobs one more crate may get, by the memory that the others leave."""
        return max(1, min(self.lanes, 1 + self.more - sum(jobs - 1 for jobs in self.running.values())))

    def share(self, name):
        """How many lanes a crate gets that all wait for. With those that may begin now it shares what such crates leave
        that are running. Where there are more jobs than processors, a check with several takes up to twice their time."""
        held = sum(jobs for it, jobs in self.running.items() if it in self.pressing)
        begun = self.running.keys() | self.ended
        ready = [it for it, below in self.waits.items() if it not in begun and self.ended.issuperset(below)]
        others = sum(self.countdown.is_pressing(it) for it in ready if it != name)
        return max(1, (self.lanes - held) // (1 + others))

    def tell(self):
        """Tells how far the work is, where that has changed: on a terminal in one line, else in a line each."""
        with self.turn:
            self.countdown.see(time.monotonic(), used_below(os.getpid()), self.running, self.ended)
            if len(self.ended) == len(self.expected):
                return
            proved = len(self.ended) - len(self.failed)
            text = f"proved {proved} of {len(self.expected)} crates, {self.shown.words(*self.countdown.left())}"
            if text != self.told and not self.is_over.is_set():
                self.told = text
                say(f"\r\033[K{text}" if ERRORS.isatty() else f"{text}\n")

    def follow(self):
        while not self.is_over.wait(3):
            self.tell()

    def stop(self, ending):
        """Tells nothing more, and ends a terminal's line."""
        with self.turn:
            self.is_over.set()
            say(ending if ERRORS.isatty() else "")


# ---- proving


def lanes_of(rt):
    """How many checks go side by side (as in_lanes, which takes a number of lanes from RT_JOBS too)."""
    number = os.environ.get("RT_JOBS", "")
    fixed = int(number) if number.isdigit() else 0
    return fixed or max(1, min(rt.processors(), rt.free() // MEMORY))


def more_jobs(rt):
    """How many jobs more than one a lane the memory holds."""
    return max(0, int((rt.free() / MEMORY - lanes_of(rt)) / 0.6))


@contextlib.contextmanager
def one_lane_each(lanes):
    """in_lanes takes so many crates at once: begun with more jobs than one, a crate would hold the lanes of others."""
    before = os.environ.get("RT_JOBS")
    os.environ["RT_JOBS"] = str(lanes)
    try:
        yield
    finally:
        if before is None:
            del os.environ["RT_JOBS"]
        else:
            os.environ["RT_JOBS"] = before


def give_way(call):
    """Makes a call in a thread of its own, all commands of which let others have the processors first."""
    given = []

    def last():
        os.setpriority(os.PRIO_PROCESS, threading.get_native_id(), 10)
        given.append(call())

    thread = threading.Thread(target=last)
    thread.start()
    thread.join()
    return given[0]


def build(rt, crate, jobs):
    """Proves a library and leaves it built, and gives rt's status.

    The first time here no work is kept of it, and it is built with its statements alone, which those above it load
    in less time than its proofs (as in `rt ci`). Where it has been built here before, or checked, its work is kept.
    """
    flags = ["--jobs", str(jobs)]
    if os.path.isdir(crate.rlib) or crate.has_kept() or rt.take_rlib(crate):
        return crate.build_rlib(flags, anew=False)
    stamp, folder = crate.stamp(), Path(crate.rlib).parent
    shutil.rmtree(folder, ignore_errors=True)
    folder.mkdir(parents=True)
    words = [*crate.words(flags, keeps=False), "--statements", "-o", crate.rlib]
    status = crate.call(rt.rtlib.RATTLE, "build", *words)
    if not status and stamp == crate.stamp():
        (folder / "stamp").write_text(stamp, encoding="utf-8")
        rt.offer(crate, stamp)
    return status


def prove(rt, crate, progress, jobs):
    """Proves a library that was begun and leaves it built; what was said where it couldn't be. Its out/build.log has
    that too."""
    os.makedirs(f"{crate.folder}/out", exist_ok=True)
    with open(f"{crate.folder}/out/build.log", "w+", encoding="utf-8") as crate.out:
        try:
            status = build(rt, crate, jobs)
        except (SystemExit, OSError) as error:
            print(error, file=crate.out)
            status = 2
        crate.out.seek(0)
        said = crate.out.read()
    progress.end(crate.name, not status)
    return said if status else None


def prove_all(rt, crates, progress, failed):
    """Has each library proved and left built once those of them below it are, the longest chains first.

    Where one isn't, `failed` gets it with what was said, and those above it are not tried. Gives whether each is.
    """
    tasks = {}

    def one(crate, given):
        if not all(given[it, "proof"] for it in progress.waits[crate.name]):
            progress.end(crate.name, False)
            return False
        # All wait for the longest chains of what is left: the crates of these share the processors, where that leaves
        # memory for others. Any other crate gives way to them, and has one job.
        is_pressing, jobs = progress.begin_in_turn(crate.name)
        call = lambda: prove(rt, crate, progress, jobs)
        said = call() if is_pressing else give_way(call)
        if said is not None:
            failed(crate, said)
        return said is None

    for crate in crates:
        waits = [(it, "proof") for it in progress.waits[crate.name]]
        call = lambda given, _jobs, it=crate: one(it, given)
        tasks[crate.name, "proof"] = (waits, progress.expected[crate.name], MEMORY, call)
    with one_lane_each(progress.lanes):
        return {name: is_proved for (name, _), is_proved in rt.in_lanes(tasks).items()}
