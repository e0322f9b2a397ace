"""Holds the counts of lines that a document has of definitions against the files of specs/.

A table with a column Lines has in each row's first cell what the row counts, in parts with a semicolon between:

    `FILE`: `A`, `B`       these definitions of the file
    `FILE` but `A`, `B`    all of the file but these
    `FILE`                 all of it

FILE stands in crates/. A definition counts with the comment above it, up to the next empty line. The heading of a
file, its imports and the lines that part it don't count. Behind the table stands the sum, as: Those are 12 lines.
Elsewhere `FILE` (12 lines) counts all of a file.
"""
import functools
import re
from pathlib import Path

CRATES = Path(__file__).resolve().parent.parent.parent / "crates"
DEFINED = re.compile(r"(?:abbrev|record|data|unfoldable|pub|\s)*\b(?:abbrev|record|data|unfoldable|pub) (\S+)")
PART = re.compile(r"`([^`]+\.antt)`(?:(:| but) ((?:`\S+`(?:, )?)+))?")
SUM = re.compile(r"Those are (\d+) (?:more )?lines")
WHOLE = re.compile(r"`([^`]+\.antt)` \((\d+) lines\)")


@functools.lru_cache(maxsize=None)
def definitions(file):
    """The definitions of a file, each with how many lines it has."""
    found = {}
    for block in (CRATES / file).read_text(encoding="utf-8").split("\n\n"):
        lines = [line for line in block.splitlines() if line.strip() and not line.startswith("-- ----")]
        names = [name[1] for name in map(DEFINED.match, lines) if name]
        if names:
            found[names[0]] = len(lines)
    return found


def counted(cell):
    """How many lines the parts of a cell have, and the names that aren't there."""
    total, gone = 0, []
    for file, word, names in PART.findall(cell):
        has = definitions(file)
        named = re.findall(r"`(\S+?)`", names)
        gone += [f"{name} in {file}" for name in named if name not in has]
        total += sum(count for name, count in has.items() if not word or (name in named) == (word == ":"))
    return total, gone


def wrong(lines):
    """The numbered lines whose counts aren't those of the files, with what they should be."""
    total, is_counted = 0, False
    for number, line in lines:
        cells = [cell.strip() for cell in line.strip().strip("|").split("|")] if line.startswith("|") else []
        if len(cells) > 1 and cells[1] == "Lines":
            total, is_counted = 0, True
        elif is_counted and len(cells) > 1 and cells[1].isdigit():
            count, gone = counted(cells[0])
            total += count
            yield from ((number, f"no {name}") for name in gone)
            if count != int(cells[1]):
                yield number, f"{cells[1]} lines where there are {count}"
        found = SUM.search(line)
        if is_counted and found:
            is_counted = False
            if int(found[1]) != total:
                yield number, f"a sum of {found[1]} lines where there are {total}"
        for file, count in WHOLE.findall(line):
            if sum(definitions(file).values()) != int(count):
                yield number, f"{count} lines of {file} where there are {sum(definitions(file).values())}"
