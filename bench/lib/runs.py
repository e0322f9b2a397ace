"""What is compared: commands, and servers. A row has our program first, and the baseline behind it."""
import itertools
import os
import shutil
import subprocess
import sys
from statistics import median

from lib.counting import counted, counter, removed, switched
from lib.servers import Server, told_at_once

# So many requests are answered before a server's time is taken.
WARM = 20
# Of a server at most so many requests are counted.
COUNTED = 50


def ended(process):
    """The seconds of processor time of a process that is waited for, its own and the system's for it."""
    _, status, usage = os.wait4(process.pid, 0)
    process.returncode = os.waitstatus_to_exitcode(status)
    if process.returncode > 1:
        sys.exit(f"{process.args} ended with status {process.returncode}")
    return usage.ru_utime + usage.ru_stime


def cleared(copy, file):
    """Leaves of a file and its log a copy of this one alone."""
    for stale in copy.parent.glob(f"{copy.name}*"):
        stale.unlink()
    shutil.copy(file, copy)


class Command:
    """A command that ends by itself, with what has to be done before it."""

    def __init__(self, words, before=lambda: None, output=None):
        self.words, self.before, self.output = [str(word) for word in words], before, output

    def spent(self, prefix=()):
        self.before()
        with open(self.output or os.devnull, "wb") as output:
            return ended(subprocess.Popen([*prefix, *self.words], stdout=output, stderr=subprocess.DEVNULL))


class Commands:
    """A run of each program, with the same run without what is measured; how many requests it has, how many runs the
    median is of for one of the others, and what has to be alike."""

    def __init__(self, name, count, goal, programs, compare=lambda: None, times=1):
        self.name, self.count, self.goal, self.compare, self.times = name, count, goal, compare, times
        self.programs = [program for program in programs if program]
        self.peaks = []

    def seconds(self, runs):
        """The median seconds of each program, one after the other in each run."""
        found = [[] for _ in self.programs]
        for _ in range(runs * self.times):
            for spent, (whole, without) in zip(found, self.programs):
                spent.append(whole.spent() - without.spent())
        self.compare()
        return [median(spent) / self.count for spent in found]

    def counted(self, at, file, inclusive):
        """The instructions of a program for a request, by function and in all."""
        told = []
        for run in self.programs[at]:
            run.spent(counter(file))
            told.append(counted(file, inclusive))
            removed(file)
        (functions, whole), (others, without) = told
        functions.subtract(others)
        return per_request(functions, whole - without, self.count)


class Serving:
    """Servers of one register, which are asked the same by so many clients at once, in turn: what starts each of them for
    so many connections. What is asked is one request, or a list of which each time the next is asked."""

    def __init__(self, name, count, goal, starts, asked, clients=1):
        self.name, self.count, self.goal, self.clients = name, count, goal, clients
        self.asked = [asked] if isinstance(asked, str) else asked
        self.programs = [start for start in starts if start]
        self.peaks = []

    def seconds(self, runs):
        """The median seconds of a request of each server: after each request of the one comes one of the other."""
        turns = self.count // self.clients
        warm, asked = min(WARM, turns), itertools.cycle(self.asked)
        servers = [Server(start((warm + runs * turns) * self.clients + 1)) for start in self.programs]
        for _ in range(warm):
            self.compare(servers, next(asked))
        found = [[] for _ in servers]
        for _ in range(runs):
            before = [server.processor() for server in servers]
            for one in itertools.islice(asked, turns):
                for server in servers:
                    told_at_once(server.address, one, self.clients)
            for spent, server, start in zip(found, servers, before):
                spent.append((server.processor() - start) / (turns * self.clients))
        self.peaks = [server.memory("VmHWM") for server in servers]
        for server in servers:
            server.end()
        return [median(spent) for spent in found]

    def compare(self, servers, asked):
        replies = {reply for server in servers for reply in told_at_once(server.address, asked, self.clients)}
        if len(replies) != 1:
            sys.exit(f"{self.name}: the replies differ")

    def counted(self, at, file, inclusive):
        """The instructions of a server for a request, by function and in all: it is counted once it has answered one."""
        count, asked = min(self.count, COUNTED), itertools.cycle(self.asked)
        server = Server([*counter(file, "--instr-atstart=no"), *self.programs[at](count + 2)])
        server.ask(next(asked))
        switched(server, "on")
        for one in itertools.islice(asked, count):
            server.ask(one)
        switched(server, "off")
        server.end()
        functions, whole = counted(file, inclusive)
        removed(file)
        return per_request(functions, whole, count)


def per_request(functions, whole, count):
    return {name: value / count for name, value in functions.items()}, whole / count
