"""What a run takes: time of the clock and of the processor, and memory."""
import os
import subprocess
import time
from dataclasses import dataclass
from pathlib import Path


@dataclass
class Taken:
    """What a run took: seconds of the clock and of the processor, and the most memory that it held, in bytes."""

    clock: float
    processor: float
    memory: int
    status: int
    output: bytes
    errors: bytes


def taken(words, output=subprocess.PIPE, errors=subprocess.PIPE):
    """Runs a command that writes little but on standard output, and says what it took."""
    start = time.perf_counter()
    ran = subprocess.Popen([str(word) for word in words], stdout=output, stderr=errors)
    told = [stream.read() if stream else b"" for stream in (ran.stdout, ran.stderr)]
    for stream in filter(None, (ran.stdout, ran.stderr)):
        stream.close()
    _, status, usage = os.wait4(ran.pid, 0)
    clock = time.perf_counter() - start
    ran.returncode = os.waitstatus_to_exitcode(status)
    return Taken(clock, usage.ru_utime + usage.ru_stime, usage.ru_maxrss * 1024, ran.returncode, *told)


def told_on_one_processor(words):
    """What a run on one processor told: the first two words of each line that has two."""
    processor = min(os.sched_getaffinity(0))
    ran = subprocess.run(
        [str(word) for word in words],
        capture_output=True,
        text=True,
        check=True,
        preexec_fn=lambda: os.sched_setaffinity(0, {processor}),
    )
    return [line.split()[:2] for line in ran.stdout.splitlines() if len(line.split()) > 1]


def status_of(pid):
    """The fields of a process's status, as VmHWM, the most memory that it had, and State."""
    lines = Path(f"/proc/{pid}/status").read_text().splitlines()
    return {name: value.strip() for name, value in (line.split(":", 1) for line in lines)}


def bytes_of(field):
    """A field of a status that counts kB, in bytes."""
    return int(field.split()[0]) * 1024


def flushes(folder, count):
    """The seconds of each of so many flushes of a page of 4,096 bytes, which a file is grown by."""
    spent = []
    with open(folder / "flushed", "wb") as file:
        for _ in range(count):
            file.write(b"x" * 4_096)
            start = time.perf_counter()
            file.flush()
            os.fsync(file.fileno())
            spent.append(time.perf_counter() - start)
    return spent
