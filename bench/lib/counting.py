"""Instructions of a run, by callgrind: they don't depend on what else the machine does."""
import re
import shutil
import subprocess
from collections import Counter
from pathlib import Path

LINE = re.compile(r"^\s*([\d,]+) \(\s*[\d.]+%\)\s+(\S.*)$")
# A function as callgrind_annotate tells it: the file of its source, its name, and the program that has it.
FUNCTION = re.compile(r"^(?:\S*?:)?(.*?)(?: \[\S+\])?$")


# What functions are for, by their names: the first that fits.
GROUPS = [
    ("checksums of pages", r"digest_of|checksum|hash::sip|sqlite_wal::batch::Batch::seal|sqlite_pool::backing::seal"),
    ("giving and taking memory", r"malloc|calloc|realloc|^free$|_int_free|unlink_chunk|tcache|rattle_(de|re)?alloc"),
    ("copying, comparing and clearing bytes", r"mem(cpy|move|cmp|set|chr)"),
    ("reading JSON", r"serde_json"),
    ("writing JSON", r"^json::|bor_wire::rendering"),
    ("reading a request", r"httparse|bor_http|matchit|form_urlencoded|^http::"),
    ("the database: pages, its log and commits", r"sqlite_(disk|wal|pager|pool|btree|store|file)"),
    ("the database: opening and auditing", r"sqlite::file|audit"),
    ("the database: statements of SQL", r"sqlite"),
    ("the register's own tables", r"bor_store"),
    ("reading statements", r"bods_read|bor_terms|jiff"),
    ("rules, lists and chains", r"bor_(records|register|desk|chains)"),
    ("the server's clients", r"bor_program|^bor::|mio"),
    ("vectors, maps and texts of the library", r"^(std|core|alloc|std_alloc|hashbrown|btree)"),
]


def can_count():
    return bool(shutil.which("valgrind") and shutil.which("callgrind_annotate"))


def counter(file, *options):
    """What stands before the words of a run whose instructions are counted into the file."""
    return ["valgrind", "--tool=callgrind", f"--callgrind-out-file={file}", *options]


def switched(server, how):
    """Begins or ends the counting of a server that runs."""
    words = ["callgrind_control", f"--instr={how}", str(server.process.pid)]
    subprocess.run(words, stdout=subprocess.DEVNULL, stderr=subprocess.DEVNULL, check=True)


def counted(file, inclusive=False):
    """The instructions of each function of a run, and of all of them."""
    words = ["callgrind_annotate", "--auto=no", "--threshold=100", f"--inclusive={'yes' if inclusive else 'no'}", str(file)]
    text = subprocess.run(words, capture_output=True, text=True, check=True).stdout
    functions, total = Counter(), 0
    for line in text.splitlines():
        found = LINE.match(line)
        if found and found[2] == "PROGRAM TOTALS":
            total = number_of(found[1])
        elif found:
            functions[FUNCTION.match(found[2])[1]] += number_of(found[1])
    return functions, total


def number_of(text):
    return int(text.replace(",", ""))


def removed(file):
    for path in Path(file.parent).glob(f"{file.name}*"):
        path.unlink()


def grouped(functions):
    """The instructions of functions by what they are for."""
    groups = Counter()
    for name, count in functions.items():
        groups[next((group for group, form in GROUPS if re.search(form, name)), "all else")] += count
    return groups
