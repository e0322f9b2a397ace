"""The files of a conversion and the report beside them, on the disk."""
import json
import os
import re
import tempfile
from pathlib import Path

from bods_packing import referred_later
from bods_warnings import warnings_of

WRAPPINGS = {
    "lines": ("JsonLines", "values that stand one behind the other to a list"),
    "package": ("Package", "the list of the member {} alone; what stands beside it is left out: {}"),
    "single": ("SingleStatement", "a statement alone to a list"),
}
FILINGS_LIMIT = 999


class Unwritten(Exception):
    """Why nothing is written."""


def names_of(paths):
    """A name for the files of each source: that of its file without the ending."""
    names = ["stdin" if path == "-" else Path(path).stem or "file" for path in paths]
    twice = next((name for at, name in enumerate(names) if name in names[:at]), None)
    return names, twice


class Written:
    """What is written of a conversion, and its report."""

    def __init__(self, conversion, names):
        self.conversion, self.words, self.folder = conversion, conversion.words, Path(conversion.words.to)
        names = names[:1] if self.words.together else names
        self.groups = list(zip(names, conversion.parts))
        for name, parts in self.groups:
            for at, part in enumerate(parts, 1):
                part.name = f"{name}.json" if len(parts) == 1 else f"{name}-{at:03}.json"
        self.report = f"{names[0]}-report.{'json' if self.words.json else 'txt'}"
        self.parts = [part for _, parts in self.groups for part in parts]

    # ---- on the disk

    def look(self):
        """Sees that nothing is lost or left from another conversion."""
        made = {part.name for part in self.parts} | {self.report}
        there = {it.name for it in self.folder.iterdir()} if self.folder.is_dir() else set()
        for source in self.conversion.sources:
            if any(is_same_file(self.folder / name, source.name) for name in made & there):
                raise Unwritten(f"{source.name} would be written over: --to names another folder")
        if not self.words.force and made & there:
            raise Unwritten(f"{self.folder / min(made & there)} is there already: --force writes over it")
        for name, _ in self.groups:
            form = re.compile(rf"{re.escape(name)}(-\d{{3,}})?\.json")
            left = sorted(it for it in there - made if form.fullmatch(it))
            if left:
                raise Unwritten(f"{self.folder / left[0]} is left from another conversion and would be lodged with these: take it away")

    def write(self):
        self.look()
        self.folder.mkdir(parents=True, exist_ok=True)
        for part in self.parts:
            self.put(part.name, part.data)
        report = self.json_report() if self.words.json else "\n".join(self.text_report()) + "\n"
        self.put(self.report, report.encode(errors="backslashreplace"))

    def put(self, name, data):
        """A file under its name once all of it is there."""
        made, path = tempfile.mkstemp(prefix=f".{name}-", dir=self.folder)
        try:
            with os.fdopen(made, "wb") as file:
                file.write(data)
            os.chmod(path, 0o666 & ~mask())
            os.replace(path, self.folder / name)
        except BaseException:
            os.unlink(path)
            raise

    def lines(self):
        """Writes all, and gives the lines that tell of it."""
        self.write()
        told = [f"{self.folder / part.name}: {counted(len(part.items), 'statement')}, {len(part.data):,} bytes" for part in self.parts]
        told += ["nothing is left to be lodged: the register has it all"] if not self.parts else []
        if len(self.parts) > FILINGS_LIMIT:
            told.append(f"these are {len(self.parts):,} files, and an agent has {FILINGS_LIMIT} filings at most")
        became = [item.became for group in self.conversion.groups for item in group]
        warnings = sum(1 for _ in warnings_of(became, self.conversion.live))
        if warnings:
            told.append(f"{counted(warnings, 'warning')} of what won't count: `tools/bods lint` tells them")
        later = referred_later(self.conversion.groups)
        if later:
            told.append(f"{counted(later, 'relationship')} of one FILE refer to what a later one states: --together puts it first")
        left = len(self.conversion.left_out)
        more = f", {counted(left, 'statement')} left out" if self.conversion.live else ""
        return [*told, f"{self.folder / self.report}: {counted(len(self.changes()), 'change')}{more}"]

    # ---- the report

    def changes(self):
        """All changes, source by source in the order of its text."""
        found = []
        for source in self.conversion.sources:
            found += self.of_file(source)
            for item in source.items:
                found += [] if id(item) in self.conversion.left_out else sorted(item.changes, key=lambda it: (it.line, it.column))
        for group in self.conversion.groups:
            for item in (it for it in group if it.before):
                says = f"it stands before what refers to it or goes on from it now, the statement of {item.before.where()}"
                found.append(item.source.change("Order", says, item.node.start, "", item.became.get("statementId")))
        return found

    def of_file(self, source):
        """What was done to a file as a whole."""
        file = source.file
        if file.encoding != "UTF-8":
            yield source.change("Encoding", f"{file.encoding} to UTF-8")
        elif file.has_mark:
            yield source.change("ByteOrderMark", "the first three bytes, EF BB BF, are left out")
        if file.shape in WRAPPINGS:
            name, says = WRAPPINGS[file.shape]
            beside = [it for it in file.root.value if it not in file.prefix] if file.prefix else []
            yield source.change(name, says.format(*file.prefix, ", ".join(beside) or "nothing"))

    def text_report(self):
        words, changes = self.words, self.changes()
        yield f"Converted by tools/bods{' with --widen' if words.widen else ''}. Nothing here is proved: `bor check` and the register answer."
        yield ""
        for part in self.parts:
            yield f"{part.name}: {counted(len(part.items), 'statement')}, {len(part.data):,} bytes"
        yield f"{counted(len(changes), 'change')}{':' if changes else ''}"
        for it in changes:
            about = "".join(f" {text}" for text in (it.pointer, it.statement and f"statement {json.dumps(it.statement, ensure_ascii=False)}") if text)
            yield f"{it.source}:{it.line}:{it.column}: {it.name}{about}: {it.says}"
        if self.conversion.live:
            yield f"{counted(len(self.conversion.left_out), 'statement')} left out, which the register has"
            for item in self.conversion.left_out.values():
                yield f"{item.where()}: statement {json.dumps(item.became['statementId'], ensure_ascii=False)}"

    def json_report(self):
        told = {
            "sources": [source.name for source in self.conversion.sources],
            "files": [{"name": it.name, "statements": len(it.items), "bytes": len(it.data)} for it in self.parts],
            "changes": [vars(it) for it in self.changes()],
            "leftOut": [{"at": it.where(), "statement": it.became["statementId"]} for it in self.conversion.left_out.values()],
        }
        return json.dumps(told, ensure_ascii=False, indent=1) + "\n"


def is_same_file(path, other):
    return os.path.exists(other) and os.path.samefile(path, other)


def mask():
    """The mask of files that are made, which can only be asked for by setting it."""
    found = os.umask(0o077)
    os.umask(found)
    return found


def counted(count, word):
    return f"{count:,} {word}{'' if count == 1 else 's'}"
