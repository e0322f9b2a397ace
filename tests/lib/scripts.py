"""What the scripts have in common."""
import importlib.machinery
import importlib.util
import sys
from pathlib import Path

TESTS = Path(__file__).resolve().parent.parent


def loaded(name):
    """The script of this name as a module."""
    return loaded_from(TESTS / name)


def loaded_from(path):
    """The script at this path as a module."""
    loader = importlib.machinery.SourceFileLoader(path.name, str(path))
    module = importlib.util.module_from_spec(importlib.util.spec_from_loader(path.name, loader))
    sys.modules[path.name] = module
    loader.exec_module(module)
    return module


class NotRun(str):
    """Why something was not run, in the place of a fault."""


def tally(outcomes):
    """Tells of each outcome with a fault, then how many have none, and how many were not run; the exit status is 0 where no fault was found."""
    passed = failed = left_out = 0
    for name, fault in outcomes:
        if isinstance(fault, NotRun):
            left_out += 1
        else:
            passed, failed = passed + (not fault), failed + bool(fault)
        if fault:
            print(f"{name}: {fault}", flush=True)
    print(f"{passed} passed, {failed} failed{f', {left_out} not run' if left_out else ''}")
    return int(failed > 0 or passed == 0)


def shown(reply):
    """The first line and the body of a reply, in one line."""
    head, _, body = reply.partition(b"\r\n\r\n")
    line = head.split(b"\r\n")[0]
    return one_line((line + b" .. " + body) if body else head)


def one_line(data):
    return data.decode(errors="replace").replace("\r", "\\r").replace("\n", "\\n")


def apart(wanted, told):
    """The two replies side by side: long ones, and heads, about the first byte in which they differ."""
    whole = shown(wanted), shown(told)
    if whole[0] != whole[1] and max(map(len, whole)) <= 300:
        return f"wanted {whole[0]}, told {whole[1]}"
    shorter = min(len(wanted), len(told))
    place = next((at for at in range(shorter) if wanted[at] != told[at]), shorter)
    start = max(place - 80, 0)
    parts = [one_line(reply[start : place + 80]) for reply in (wanted, told)]
    return f"wanted {shown(wanted)[:60]}, told {shown(told)[:60]}; from byte {start}: {parts[0]} | {parts[1]}"
