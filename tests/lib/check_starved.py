"""Calls that take no memory, made while none is left.

The tests of `crates/bor_tests/src/without_memory.rt` make them, between two reads of `/dev/zero`. Here each of these
tests is run with the stand-in (`lib/standin.c`), which refuses all memory between the two. It has to pass as it does
with ample memory, and none may have been asked for, but by the one test that asks for some.
"""
import os
import subprocess
import tempfile
from pathlib import Path

from lib.checking import Mismatch, is_so
from lib.program import TOP
from lib.scripts import NotRun
from lib.standins import NOT_RUN, built

# The program of the tests, as `rt ci` and `rt test` leave it.
TESTS = TOP / "crates" / "bor_tests" / "out" / "bor_tests_tests"
MODULE = "without_memory::"
# This one sees that memory is refused.
ASKS_FOR_MEMORY = f"{MODULE}a_file_is_read"
SECONDS = 60


def listed(program):
    """The names of the tests that make such calls."""
    ran = subprocess.run([program, "--list"], capture_output=True, text=True, timeout=SECONDS)
    names = [line.removesuffix(": test") for line in ran.stdout.splitlines() if line.endswith(": test")]
    return [name for name in names if name.startswith(MODULE)]


def asked_for(program, library, name, told):
    """How often the test asked for memory while none was left, which the stand-in tells in a file."""
    told.unlink(missing_ok=True)
    env = {**os.environ, "LD_PRELOAD": library, "STANDIN_STARVE": str(told)}
    ran = subprocess.run([program, name], capture_output=True, env=env, cwd=told.parent, timeout=SECONDS)
    is_so(ran.returncode == 0, f"the test ended with status {ran.returncode}: {ran.stderr.decode(errors='replace')}")
    counts = told.read_text().split() if told.exists() else []
    is_so(len(counts) == 1, f"it was without memory {len(counts)} times")
    return int(counts[0])


def fault_of(program, library, name, folder):
    """What is wrong with the test, if anything is."""
    try:
        count = asked_for(program, library, name, Path(folder, "told"))
        if name == ASKS_FOR_MEMORY:
            is_so(count > 0, "no memory is refused")
        else:
            is_so(count == 0, f"memory was asked for {count} times")
    except (Mismatch, OSError, subprocess.SubprocessError) as found:
        return str(found)
    return None


def asked(_bor, program=TESTS):
    """How each test came out; that they were not run where there is no `cc`, or no program of the tests."""
    with tempfile.TemporaryDirectory(prefix="bor-starved-") as folder:
        if not program.is_file():
            yield "calls without memory", NotRun(f"not run: no {program}")
            return
        library = built(folder)
        if not library:
            yield "calls without memory", NOT_RUN
            return
        names = listed(program)
        yield "calls without memory", None if ASKS_FOR_MEMORY in names else "the tests aren't there: build them anew"
        for name in names:
            yield f"calls without memory, {name}", fault_of(program, library, name, folder)
