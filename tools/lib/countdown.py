"""How much time is left, of crates that are proved side by side.

Each has the processor time that it is expected to take. While they run, two things are learnt. How dear they are here,
by those that have ended, and by those that have passed what was expected. And the pace: how long a machine that has
other work takes for what the processors of an idle one do in a second, the last minutes above all.
"""
import contextlib
import os
from pathlib import Path

# What was expected counts as much as ended crates of so many seconds of processor time.
PRIOR = 100
# What was seen of the pace so many seconds ago counts half, and at the start an idle machine as much as this part of it.
HALVED, IDLE = 60, 0.5
# How much longer it may take while nothing is known.
DOUBT = 0.75
# All wait for chains of at least this part of the longest one.
LONG = 0.8


def processors_for(jobs):
    """How many processors a check with so many jobs keeps at work."""
    return 1 + (jobs - 1) / 2


class Countdown:
    """The crates stand with their expected seconds, each after those that it waits for. So many lanes take crates;
    those that all others wait for get the most jobs."""

    def __init__(self, expected, waits, lanes, most, now):
        self.expected, self.waits, self.lanes, self.most, self.at = expected, waits, lanes, most, now
        self.used, self.running, self.ended = dict.fromkeys(expected, 0.0), {}, set()
        # the seconds since the start, those long ago counted less, and as many of an idle machine as did so much
        self.clock = self.idle = HALVED * IDLE

    def see(self, now, used, running, ended):
        """What was seen last: the processor time that each crate's processes of this moment have had, which crates are
        running with how many jobs, and which have ended."""
        had, seconds = sum(self.used.values()), now - self.at
        # (what a process had may be missing while it ends)
        self.used = {name: max(before, used.get(name, 0)) for name, before in self.used.items()}
        wanted = min(sum(map(processors_for, self.running.values())), self.lanes)
        if wanted:
            faded = 0.5 ** (seconds / HALVED)
            self.clock = self.clock * faded + seconds
            self.idle = self.idle * faded + (sum(self.used.values()) - had) / wanted
        self.at, self.running, self.ended = now, dict(running), set(ended)

    def dearness(self):
        """How many times what was expected crates take here, and how many seconds of those expected tell so."""
        # (one that took next to nothing was taken over from elsewhere)
        known = [it for it in self.ended if self.used[it] > self.expected[it] / 20]
        used, expected = PRIOR + sum(self.used[it] for it in known), PRIOR + sum(self.expected[it] for it in known)
        for name in self.expected.keys() - self.ended:
            # it isn't done, and is dearer than those
            if self.used[name] * expected > used * self.expected[name]:
                used, expected = used + self.used[name], expected + self.expected[name]
        return used / expected, expected - PRIOR

    def rests(self):
        """The processor time that each crate still takes."""
        dear, rests = self.dearness()[0], {}
        for name, whole in self.expected.items():
            rest = max(dear * whole - self.used[name], dear * whole / 7)
            rests[name] = 0 if name in self.ended else rest
        return rests

    def chains(self, rests):
        """For each crate how long the longest chain of those that wait for it takes, and itself."""
        found = dict(rests)
        for name in reversed(rests):
            for below in self.waits[name]:
                found[below] = max(found[below], rests[below] + found[name])
        return found

    def is_pressing(self, name):
        """Whether all wait for a crate that may begin: a chain of what is left begins with it that is about the longest."""
        chains = self.chains(self.rests())
        return chains[name] >= LONG * max(chains.values())

    def on_an_idle_machine(self, rests):
        """The seconds that so much takes there: the crates one after the other, those of the longest chain first."""
        chains, left, seconds = self.chains(rests), {name: rest for name, rest in rests.items() if rest}, 0
        while left:
            ready = [it for it in left if not any(below in left for below in self.waits[it])]
            ready, paces, free = sorted(ready, key=chains.get, reverse=True)[: self.lanes], {}, self.lanes
            for name in ready:
                jobs = self.most if chains[name] >= LONG * chains[ready[0]] else 1
                paces[name] = min(processors_for(jobs), free)
                free -= paces[name]
            paces = {name: pace for name, pace in paces.items() if pace}
            step = min(left[name] / pace for name, pace in paces.items())
            seconds += step
            for name, pace in paces.items():
                left[name] -= pace * step
                if left[name] < 1e-6:
                    del left[name]
        return seconds

    def left(self):
        """The seconds left: how many are likely, and how many it may be as long as little is known."""
        likely = self.on_an_idle_machine(self.rests()) * self.clock / max(self.idle, self.clock / 20)
        return likely, likely * (1 + DOUBT * PRIOR / (PRIOR + self.dearness()[1]))


class Told:
    """What is told of it in minutes, which goes down, unless what was told was wrong by a sixth."""

    def __init__(self):
        self.fewest = self.most = 0

    def words(self, likely, at_most):
        """The words for so many seconds: from so many minutes to so many, where these differ by more than a quarter."""
        fewest = max(round(likely / 60), 1)
        if not self.fewest or not self.fewest <= fewest <= self.fewest * 7 / 6:
            self.fewest, self.most = fewest, -(-at_most // 300) * 5 if at_most > 900 else round(at_most / 60)
        if self.most > self.fewest * 5 / 4 and self.fewest > 3:
            return f"{self.fewest} to {self.most:.0f} minutes left"
        return f"about {self.fewest} minute{'s' * (self.fewest > 1)} left"


# ---- what the processors gave


def used_below(process, ticks=os.sysconf("SC_CLK_TCK")):
    """The seconds of processor time that the processes below this one have had, by the name of the folder that each works in."""
    below, places, found = {}, {}, {}
    for folder in Path("/proc").glob("[0-9]*"):
        with contextlib.suppress(OSError):  # (it has ended)
            words = (folder / "stat").read_bytes().rpartition(b")")[2].split()
            # (its own time, and that of those it waited for)
            below.setdefault(int(words[1]), []).append((int(folder.name), sum(map(int, words[11:15])) / ticks))
            places[int(folder.name)] = os.path.basename(os.readlink(folder / "cwd"))
    left = [(number, seconds, None) for number, seconds in below.get(process, [])]
    while left:
        number, seconds, place_above = left.pop()
        # (one that has ended, and isn't waited for yet, has no folder)
        place = places.get(number, place_above)
        found[place] = found.get(place, 0) + seconds
        left += [(*it, place) for it in below.get(number, [])]
    return found
