"""Whether the baseline tells what the program tells, of all requests of tests/rows."""
import json
import subprocess
import sys
from concurrent.futures import ThreadPoolExecutor

from lib.programs import BUILT, TOP
from lib.requests import DAY, REGISTRAR

# (the scripts of tests have a package `lib` of their own)
LISTED = """import json, sys
sys.path.insert(0, sys.argv[1])
from lib.rows import all_rows, enrolments
first = [one.request.decode("latin-1") for one in enrolments()]
rows = [(row.name, [one.request.decode("latin-1") for one in row.exchanges()]) for row in all_rows()]
print(json.dumps([(name, first + asked) for name, asked in rows if asked]))
"""


def requests_of_rows():
    """The names of the rows, and what is asked in each of a new register."""
    words = [sys.executable, "-B", "-c", LISTED, TOP / "tests"]
    return json.loads(subprocess.run(words, capture_output=True, check=True, text=True).stdout)


def differing(folder, baseline, at, name, asked):
    """The row's name, where the replies differ."""
    place = folder / f"row-{at}"
    place.mkdir()
    paths = [place / f"{number}" for number in range(len(asked))]
    for path, one in zip(paths, asked):
        path.write_bytes(one.encode("latin-1"))
    ours = [BUILT, "exchange", "--registrar", REGISTRAR, "--day", DAY]
    told = [subprocess.run([*words, *paths], capture_output=True).stdout for words in (ours, [baseline, "exchange"])]
    return name if told[0] != told[1] else None


def compare_rows(folder, baseline):
    """Says how many requests there were; the script ends where replies differ."""
    rows = requests_of_rows()
    with ThreadPoolExecutor(2) as pool:
        found = pool.map(lambda it: differing(folder, baseline, it[0], *it[1]), enumerate(rows))
        names = [name for name in found if name]
    if names:
        sys.exit("\n".join([f"{len(names)} rows are answered otherwise by the baseline:", *names]))
    return f"the baseline tells the same of all {sum(len(asked) for _, asked in rows):,} requests of tests/rows"
