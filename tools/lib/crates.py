"""What crates.txt says: the crates, and what each stands on. (The script `bor` reads it by itself, without Python.)"""
from pathlib import Path

TOP = Path(__file__).resolve().parent.parent.parent


def listed(text=None):
    """The crates of crates.txt, or of a text of its form, each with all libraries that it stands on."""
    text = (TOP / "crates.txt").read_text(encoding="utf-8") if text is None else text
    rows = [line.partition("#")[0].partition(":") for line in text.splitlines()]
    return {head.split()[0]: tail.replace(",", " ").split() for head, _, tail in rows if head.strip()}


def own():
    """The crates, each with those of them that it stands on."""
    every = listed()
    return {name: [it for it in below if it in every] for name, below in every.items()}


def with_those_below(names):
    """These crates, and all that they stand on, those below first."""
    every, found = own(), []

    def add(name):
        for below in every[name]:
            add(below)
        if name not in found:
            found.append(name)

    for name in names:
        add(name)
    return found


def times():
    """The seconds of processor time that crates took where that was measured, by tools/times.tsv."""
    lines = (TOP / "tools" / "times.tsv").read_text(encoding="utf-8").splitlines()
    return {name: int(took) for name, took, *_ in (it.split("\t") for it in lines if not it.startswith("#"))}
