"""What tools/build tells of the time that is left (tools/lib/countdown.py), with a clock and processors that are made up.

The crates have the shape of a build of the program: a long chain, and others beside it.
"""
import os
import re
import subprocess
import sys
from pathlib import Path

from lib.checking import check, is_so
from lib.program import TOP

sys.path.append(str(TOP / "tools" / "lib"))

from countdown import Countdown, Told, used_below

STEP = 3
LANES = 4
# The processor seconds of each crate, the crates that it waits for, and how many times as many it takes.
CRATES = {
    "terms": (54, [], 0.9),
    "read": (143, ["terms"], 1.2),
    "records": (99, ["read"], 0.8),
    "chains": (450, ["records"], 1.3),
    "register": (90, ["records"], 1.0),
    "sql": (360, ["register"], 0.7),
    "reads": (185, ["sql"], 1.1),
    "keys": (365, ["chains", "reads"], 1.4),
    "desk": (655, ["chains", "register"], 0.8),
    "store": (266, ["desk", "keys"], 1.2),
    "http": (116, ["terms"], 1.1),
    "wire": (245, ["http", "desk"], 0.9),
    "words": (163, ["terms"], 1.3),
    "program": (360, ["wire", "words"], 0.8),
    "all": (900, ["program", "store"], 1.1),
}
EXPECTED = {name: expected for name, (expected, _, _) in CRATES.items()}
WAITS = {name: waits for name, (_, waits, _) in CRATES.items()}


def build(share, dear=1, lanes=LANES):
    """A build on processors that give it a share of their time, which goes by how much of the work is done. Gives
    when it ended, and for each time that more was told: the time, how much was done, and the words."""
    takes = {name: expected * dear * times for name, (expected, _, times) in CRATES.items()}
    countdown, told = Countdown(EXPECTED, WAITS, lanes, lanes, 0), Told()
    used, running, ended, now, lines = dict.fromkeys(CRATES, 0), {}, set(), 0, []
    while len(ended) < len(CRATES):
        ready = [it for it, below in WAITS.items() if it not in ended and it not in running and ended.issuperset(below)]
        pressing = [it for it in ready if countdown.is_pressing(it)]
        for name in sorted(ready, key=lambda it: it not in pressing)[: lanes - len(running)]:
            running[name] = lanes if name in pressing else 1
        part = sum(used.values()) / sum(takes.values())
        left = STEP * lanes * share(part)
        for name, jobs in sorted(running.items(), key=lambda it: -it[1]):
            # (four jobs keep three processors at work)
            had = min(left, (1 + (jobs - 1) * 2 / 3) * STEP * share(part), takes[name] - used[name])
            used[name], left = used[name] + had, left - had
        now += STEP
        ended = {it for it in CRATES if used[it] > takes[it] - 1e-6}
        running = {name: jobs for name, jobs in running.items() if name not in ended}
        # (of a crate that has ended no process is left)
        countdown.see(now, {name: used[name] for name in running}, running, ended)
        if len(ended) < len(CRATES):
            lines.append((now, part, told.words(*countdown.left())))
    return now, lines


def minutes_in(words):
    """The fewest and the most minutes that the words tell."""
    found = re.fullmatch(r"(?:about )?(\d+)(?: to (\d+))? minutes? left", words)
    is_so(found, f"it tells {words!r}")
    return int(found[1]), int(found[2] or found[1])


def is_true(what, ended, lines, since=0.1):
    """Once so much is done, neither fewer than half of the minutes that are left are told, nor twice as many and more."""
    for now, part, words in lines:
        left = (ended - now) / 60
        if part >= since and left >= 2:
            fewest, _ = minutes_in(words)
            is_so(left / 2 <= fewest <= left * 2, f"{what}, {part:.0%} done: {words!r} where {left:.1f} minutes are left")


@check
def the_countdown_tells_the_truth_at_any_pace(_bor, _folder):
    """the time left of a build is told within half and twice of it once a tenth is done: on idle processors, on those that give a third of their time, and where each crate takes three times what was expected"""
    machines = {
        "idle processors": build(lambda part: 1),
        "one processor": build(lambda part: 1, lanes=1),
        "processors that give a third": build(lambda part: 1 / 3),
        "crates that take three times as much": build(lambda part: 1, dear=3),
        "crates that take half as much": build(lambda part: 1, dear=0.5),
    }
    for what, (ended, lines) in machines.items():
        is_true(what, ended, lines)


@check
def the_countdown_follows_a_change_of_the_pace(_bor, _folder):
    """a build whose processors give a third from the middle on, or all of it, is told of truly four minutes later, and until then as if it went on as it was"""
    for what, early, late in (("slower", 1, 1 / 3), ("faster", 1 / 3, 1)):
        ended, lines = build(lambda part: early if part < 0.5 else late)
        change = next(now for now, part, _ in lines if part >= 0.5)
        steady, _ = build(lambda part: early)
        is_true(f"a pace that gets {what}, before", steady, [it for it in lines if it[0] < change])
        is_true(f"a pace that gets {what}, after", ended, [it for it in lines if it[0] >= change + 240])


@check
def the_countdown_tells_a_range_while_it_cannot_know(_bor, _folder):
    """the time left of a build is told as a range at first, as one number in the end, and seldom as more than before"""
    ended, lines = build(lambda part: 1)
    first, last = minutes_in(lines[0][2]), minutes_in(lines[-1][2])
    is_so(first[0] * 4 / 3 < first[1] and first[0] <= ended / 60 <= first[1], f"at first: {lines[0][2]}, where it took {ended / 60:.0f}")
    is_so(last == (1, 1), f"at last: {lines[-1][2]}")
    told = [minutes_in(words)[0] for _, _, words in lines]
    rises = sum(one < other for one, other in zip(told, told[1:]))
    is_so(rises <= 4, f"it rises {rises} times")


# A process whose child works for a while and ends; it isn't waited for before a line comes.
WORKING = """
import subprocess, sys, time
child = subprocess.Popen([sys.executable, "-c", "import time\\nwhile time.process_time() < 0.4: pass"], stdout=subprocess.PIPE)
child.stdout.read()
print(flush=True)
input()
"""


@check
def the_processor_time_of_checks_is_counted(_bor, folder):
    """the processor time that processes below a script had is told by the folder that each works in, of one that has ended too"""
    place = Path(folder, "working")
    place.mkdir()
    pipes = {"stdin": subprocess.PIPE, "stdout": subprocess.PIPE}
    with subprocess.Popen([sys.executable, "-c", WORKING], cwd=place, **pipes) as ran:
        ran.stdout.readline()
        told = used_below(os.getpid()).get(place.name, 0)
        ran.communicate(b"\n")
    is_so(0.3 < told < 5, f"{told} seconds are told of 0.4 and more")
