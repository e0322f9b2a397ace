"""Reads the contracts of the crates: each call and law with its place, its page and its clauses.

A clause stands between a function's head and its body, as `ensures NAME { .. }` or `requires NAME { .. }`. In a
trait, and in what implements one, a `ghost NAME` with braces is read as a clause of the trait or of the type. A
clause without a name is called by its first word. A clause's comment is the one above it or above the clauses right
before it; a blank line ends those that a comment speaks of. A law is a public function that has a contract, takes
nothing, gives nothing and does nothing.
"""
import functools
import re
from dataclasses import dataclass, field
from pathlib import Path

TOP = Path(__file__).resolve().parent.parent.parent
CRATES = sorted(it.name for it in (TOP / "crates").iterdir() if (it / "src").is_dir())

OPAQUE = re.compile(r'"(?:\\[\s\S]|[^"\\])*"|//[^\n]*|\'(?:\\.|[^\'\\\n])\'')
ITEM = re.compile(
    r"^ *(?P<pub>pub(?:\([^)]*\))? )?(?:(?:final|const|unsafe) )*"
    r"(?:(?P<word>fn|impl|trait|mod|macro_rules!|struct|enum|const|static|type)\b ?(?P<name>\w*)|use (?P<used>[^;]+);"
    r"|ghost (?P<ghost>\w+)(?:: | = )(?=\{))",
    re.M,
)
CLAUSE = re.compile(r"(ensures|requires)\*?(?: (\w+))?\s*$")
# Behind the name of a function: it takes nothing, and gives nothing.
NOTHING = re.compile(r"(?:<[^(]*>)?\(\)(?!\s*->)")
# The ghosts of a type that are no clauses: they say which values a contract sees.
VIEWS = ("Value", "view")


@dataclass
class Clause:
    """A clause: `word` is ensures, requires or ghost; `comment` is said of it and of the clauses beside it."""

    word: str
    name: str
    line: int
    comment: str
    text: str


@dataclass
class Call:
    """A function, a trait or what a type has of one, with its clauses. `names` are the public ones.

    Of what a type has of a trait, `trait` is that trait, whose name stands behind the type's in the path.
    """

    path: str
    file: str
    line: int
    is_public: bool
    is_law: bool
    page: list
    clauses: list
    trait: str = ""
    names: list = field(default_factory=list)

    @property
    def name(self):
        return self.path.rpartition("::")[2]

    @property
    def shown(self):
        """The shortest public name, of its own crate first, or the path in the source where it has none."""
        crate = self.path.partition("::")[0] + "::"
        return min(self.names, key=lambda it: (not it.startswith(crate), it.count("::"), it), default=self.path)

    @property
    def is_promise(self):
        """Whether a user can call it, or read it as what a type has of a trait, and it has a contract."""
        return self.is_public and bool(self.names) and bool(self.clauses)

    def clause(self, name):
        return next((it for it in self.clauses if name == it.name), None)


# ---- one file


def blanked(text):
    """The text with blanks for its comments and for what is quoted, so that each brace is one of code."""
    return OPAQUE.sub(lambda it: re.sub(r"[^\n]", " ", it[0]), text)


def without_generics(head):
    """The head of an `impl` without what stands between angle brackets, and without `where`."""
    head = head.replace("->", "")
    while (shorter := re.sub(r"<[^<>]*>", "", head)) != head:
        head = shorter
    return re.split(r"\bwhere\b", head)[0].split()


class Source:
    """The items of one file of a crate. `module` is its place as a list of names, the crate first."""

    def __init__(self, path, module):
        self.file = str(path.relative_to(TOP))
        self.text = path.read_text(encoding="utf-8")
        self.code = blanked(self.text)
        self.lines = self.text.split("\n")
        self.module = module
        self.items, self.uses, self.calls, self.modules = {}, [], [], {}
        self.read(0, len(self.code), None, None)

    def line_at(self, at):
        return self.code.count("\n", 0, at) + 1

    def closing(self, at):
        """The place of the bracket that closes the one at this place."""
        depth = 0
        for found in re.compile(r"[{}()\[\]]").finditer(self.code, at):
            depth += 1 if found[0] in "{([" else -1
            if depth == 0:
                return found.start()
        raise ValueError(f"{self.file}:{self.line_at(at)}: a bracket is open at the end")

    def stop(self, at):
        """The next `{` or `;` that stands in no round or square bracket."""
        while True:
            found = re.compile(r"[{;(\[]").search(self.code, at)
            if found is None or found[0] in "{;":
                return found.start() if found else len(self.code)
            at = self.closing(found.start()) + 1

    def comment_above(self, line, mark):
        """The lines of a comment right above a line; what stands between brackets as `#[..]` is passed over."""
        found = []
        for text in map(str.strip, reversed(self.lines[: line - 1])):
            if text.startswith(mark) and not text.startswith(mark + "/"):
                found.insert(0, text.removeprefix(mark).strip())
            elif not text.startswith("#["):
                break
        return found

    def page_above(self, line):
        """The page of an item, or the comment of a private one."""
        return self.comment_above(line, "///") or self.comment_above(line, "//")

    def read(self, start, end, owner, trait):
        at = start
        while found := ITEM.search(self.code, at, end):
            at = self.item(found, owner, trait)

    def item(self, found, owner, trait):
        """Takes in an item, and gives the place where it ends."""
        if found["used"] is not None:
            if found["pub"] == "pub " and owner is None:
                self.uses.append(found["used"])
            return found.end()
        if found["ghost"]:
            return self.ghost(found, owner)
        if found["word"] == "fn":
            return self.function(found, owner, trait)
        return self.other(found)

    def other(self, found):
        """Takes in an item that is no function: a module, a type, a trait or an `impl`."""
        word, name, at = found["word"], found["name"], self.stop(found.end())
        is_open = at < len(self.code) and self.code[at] == "{"
        end = self.closing(at) + 1 if is_open else at + 1
        if word == "mod":
            self.modules[name] = found["pub"] == "pub "
        elif word in ("struct", "enum", "trait", "const", "static", "type"):
            self.items[name] = found["pub"] == "pub "
        if word == "trait":
            self.of_type(found, name, at, end, name)
        elif word == "impl":
            head = without_generics(self.code[found.start() : at].replace("impl", "", 1))
            trait = head[head.index("for") - 1] if "for" in head else None
            self.of_type(found, head[-1].strip("&"), at, end, trait)
        return end

    def of_type(self, found, name, at, end, trait):
        """Takes in a trait or an `impl`, which is a call of its own beside its functions."""
        line = self.line_at(found.start() + len(found[0]) - len(found[0].lstrip()))
        is_public = found["word"] == "impl" or found["pub"] == "pub "
        path = [*self.module, name, *([trait] if trait and trait != name else [])]
        whole = Call("::".join(path), self.file, line, is_public, False, self.page_above(line), [])
        whole.trait = trait if trait not in (None, name) else ""
        self.calls.append(whole)
        self.read(at + 1, end - 1, whole, trait)

    def ghost(self, found, owner):
        open_at = found.end()
        end = self.closing(open_at) + 1
        if owner is not None and found["ghost"] not in VIEWS:
            line = self.line_at(open_at)
            text = self.text[open_at + 1 : end - 1].strip()
            owner.clauses.append(Clause("ghost", found["ghost"], line, " ".join(self.page_above(line)), text))
        return end

    def function(self, found, owner, trait):
        line = self.line_at(found.end())
        of = owner.path.split("::")[len(self.module) :] if owner else []
        path = "::".join([*self.module, *of, found["name"]])
        clauses, at, body = self.contract(found.end())
        is_public = found["pub"] == "pub " or (trait is not None and (of == [trait] or bool(clauses)))
        takes_nothing = NOTHING.match(self.code, found.end()) is not None
        is_law = found["pub"] == "pub " and takes_nothing and bool(clauses) and not body
        call = Call(path, self.file, line, is_public, is_law, self.page_above(line), clauses)
        if owner is None:
            self.items[found["name"]] = is_public
        self.calls.append(call)
        return at

    def contract(self, at):
        """The clauses behind a function's head, the place where it ends, and its body."""
        clauses, comment, last = [], "", self.line_at(at)
        while True:
            stop = self.stop(at)
            if stop >= len(self.code) or self.code[stop] == ";":
                return clauses, stop + 1, ";"
            end = self.closing(stop) + 1
            found = CLAUSE.search(self.code, at, stop)
            if not found:
                return clauses, end, self.code[stop + 1 : end - 1].strip()
            line = self.line_at(found.start())
            above = self.comment_above(line, "//")
            if above or not all(it.strip() for it in self.lines[last : line - 1]):
                comment = " ".join(above)
            text = self.text[stop + 1 : end - 1].strip()
            clauses.append(Clause(found[1], found[2] or found[1], line, comment, text))
            at, last = end, self.line_at(end)


# ---- a crate, and its public names


@functools.lru_cache(maxsize=None)
def sources_of(crate):
    """The files of a crate by their modules, each with whether its module is public."""
    folder = TOP / "crates" / crate / "src"
    root = next(it for it in (folder / "lib.rt", folder / "main.rt") if it.exists())
    found, left = {}, [(root, [crate], True)]
    while left:
        path, module, is_public = left.pop(0)
        source = Source(path, module)
        found["::".join(module)] = source, is_public
        below = path.parent if path.name in ("lib.rt", "main.rt", "mod.rt") else path.with_suffix("")
        for name, is_handed_on in source.modules.items():
            files = [it for it in (below / f"{name}.rt", below / name / "mod.rt") if it.exists()]
            left += [(it, [*module, name], is_public and is_handed_on) for it in files]
    return found


def names_used(used):
    """The paths of a `pub use`, each with the name that it has there."""
    used = "".join(used.split())
    found = re.fullmatch(r"(.*?)(?:::)?\{(.*)\}", used)
    paths = [f"{found[1]}::{it}" for it in found[2].split(",") if it] if found else [used]
    return [(it, it.rpartition("::")[2]) for it in paths]


def whole_path(path, module):
    """A path as it stands in a module, from its crate on."""
    first, _, rest = path.partition("::")
    if first == "crate":
        return f"{module.split('::')[0]}::{rest}"
    if first == "super":
        return f"{module.rpartition('::')[0]}::{rest}"
    return path if first in CRATES else f"{module}::{path}"


@functools.lru_cache(maxsize=None)
def handed_on():
    """Of each public name of a module, the path of what it names. A module that isn't public stands in brackets."""
    found = {}
    for crate in CRATES:
        for module, (source, is_public) in sources_of(crate).items():
            named = [(f"{module}::{name}", name) for name, is_item_public in source.items.items() if is_item_public]
            named += [(whole_path(path, module), name) for used in source.uses for path, name in names_used(used)]
            place = module if is_public else f"({module})"
            found.update({f"{place}::{name}": path for path, name in named})
    return found


def defined_at(path):
    """Where what has this path is defined, through all that hand it on."""
    module, _, name = path.rpartition("::")
    further = handed_on().get(path) or handed_on().get(f"({module})::{name}")
    return path if further in (None, path) else defined_at(further)


@functools.lru_cache(maxsize=None)
def public_names():
    """Of each item that is public somewhere, the public names, by the path where it is defined."""
    found = {}
    for name in handed_on():
        if not name.startswith("("):
            found.setdefault(defined_at(name), []).append(name)
    return found


def home_of(call, crate):
    """The item that a call is, or belongs to, as its crate defines it, and what stands behind that."""
    source = next(it for it, _ in sources_of(crate).values() if it.file == call.file)
    words = call.path.split("::")[len(source.module) :]
    if words[0] in source.items:
        return "::".join([*source.module, words[0]]), words[1:]
    homes = [module for module, (it, _) in sources_of(crate).items() if words[0] in it.items]
    return (f"{homes[0]}::{words[0]}" if homes else call.path), words[1:]


@functools.lru_cache(maxsize=None)
def calls_of(crate):
    """All calls of a crate, in the order of its modules, with their public names."""
    calls = [it for source, _ in sources_of(crate).values() for it in source.calls]
    for call in calls:
        home, behind = home_of(call, crate)
        call.names = ["::".join([it, *behind]) for it in public_names().get(home, [])]
    return calls


def all_calls():
    return [call for crate in CRATES for call in calls_of(crate)]
