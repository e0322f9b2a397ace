"""Hostile inputs by chance, 10,000 of them: one outcome for each thing that has to hold, and one for what they met."""
import subprocess
import tempfile
from collections import Counter
from concurrent.futures import ThreadPoolExecutor
from pathlib import Path

from lib.fuzzing import GROUPS, Fuzz, sizes, unmet

COUNT, SEED = 10_000, 20240201
# Batches side by side: more of them wait for one another in Python.
JOBS = 2


class Summary:
    """What so many inputs met, and what was found in each group."""

    def __init__(self):
        self.count = self.windows = self.said = 0
        self.statuses, self.refusals = Counter(), Counter()
        self.findings = {group: [] for group in GROUPS}

    def add(self, outcome):
        self.count += outcome.count
        self.windows += outcome.windows
        self.said += outcome.said
        self.statuses += outcome.statuses
        self.refusals += outcome.refusals
        for finding in outcome.findings:
            self.findings[finding.group].append(finding)

    def found(self):
        return sum(map(len, self.findings.values()))


def kept_in():
    """Where inputs that failed are left."""
    return Path(tempfile.gettempdir(), "bor-fuzz-found")


def told(findings, folder):
    """The finding with the fewest inputs, where these are, and in how many batches there is one."""
    if not findings:
        return None
    least = min(findings, key=lambda finding: len(finding.inputs))
    which = f"{len(findings)} batches, input" if len(findings) > 1 else "one batch, input"
    return f"{which} {least.saved(folder)}: {least.text}"


def outcomes(fuzz, count, jobs):
    """How each batch came out."""
    with ThreadPoolExecutor(jobs) as pool:
        yield from pool.map(fuzz.outcome, range(len(sizes(count))), sizes(count))


def asked(bor, count=COUNT, seed=SEED):
    summary, failed = Summary(), None
    try:
        for outcome in outcomes(Fuzz(bor, seed), count, JOBS):
            summary.add(outcome)
    except (OSError, subprocess.SubprocessError) as fault:
        failed = f"{type(fault).__name__}: {fault}"
    for group, name in GROUPS.items():
        yield f"fuzz, {count} inputs: {name}", failed or told(summary.findings[group], kept_in())
    missing = unmet(summary.statuses, summary.refusals)
    fault = f"none met {', '.join(map(str, missing))}" if missing else None
    yield f"fuzz, {count} inputs: they meet each status and each refusal", failed or fault
    fault = None if summary.windows and summary.said else f"{summary.windows} places, {summary.said} second answers"
    name = "all is asked before and after refused ones, and a second answer says something"
    yield f"fuzz, {count} inputs: {name}", failed or fault
