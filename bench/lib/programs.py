"""The programs that are measured: `bor`, and programs of their own over the repository's crates."""
import os
import shutil
import socket
import subprocess
import sys
from pathlib import Path

TOP = Path(__file__).resolve().parent.parent.parent
sys.path.append(str(TOP / "tools" / "lib"))

from crates import listed, with_those_below

# This builds the program where it has to be built, and runs it.
BOR = str(TOP / "bor")
BUILT = str(TOP / "crates" / "bor" / "out" / "bor")
RT = os.environ.get("RT", "rt")


def tell_usage(text):
    """Tells how the script is used, where that is asked for, and ends it."""
    if sys.argv[1:2] in (["-h"], ["--help"]):
        print(text)
        sys.exit(0)


def linked(source, target):
    try:
        os.link(source, target)
    except OSError:
        shutil.copy2(source, target)


def made(folder, name, crates, libraries, modules):
    """Makes a crate of a program of bench/programs in a repository of its own, beside links to these crates and those below them;
    it may take modules. (Its file has another ending there, since `rt ci` takes no .rt file outside the crates.)"""
    crate, needed = folder / "crates" / name, with_those_below(crates)
    (crate / "src").mkdir(parents=True)
    shutil.copy(TOP / "bench" / "programs" / f"{name}.rattle", crate / "src" / "main.rt")
    for module in modules:
        shutil.copy(module, crate / "src")
    lists = {**{it: below for it, below in listed().items() if it in needed}, name: [*needed, *libraries.split()]}
    (folder / "crates.txt").write_text("".join(f"{it}: {' '.join(below)}\n" for it, below in lists.items()))
    shutil.copy(TOP / "HANDLES", folder)
    # What the checks keep for the next one is large, and is not needed here.
    ignored = shutil.ignore_patterns("incremental", "*_tests*")
    for it in needed:
        shutil.copytree(TOP / "crates" / it, folder / "crates" / it, ignore=ignored, copy_function=linked)
    return crate


def built(folder, name, crates, libraries="", modules=()):
    """Proves and builds the program over the crates as they are built here, which `rt lib` does first where it has to."""
    for it in crates:
        subprocess.run([RT, "lib"], cwd=TOP / "crates" / it, stdout=subprocess.DEVNULL, check=True)
    crate = made(folder, name, crates, libraries, modules)
    ran = subprocess.run([RT, "run"], cwd=crate, capture_output=True, text=True)
    if ran.returncode:
        sys.exit(ran.stdout + ran.stderr)
    return str(crate / "out" / name)


def free_port():
    with socket.socket() as probe:
        probe.bind(("127.0.0.1", 0))
        return probe.getsockname()[1]
